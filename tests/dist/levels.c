/* The library compiled for x86-64 and for its levels, without a C library: a store of 100 grants made, checked and proved, the proofs checked one by one and in a row, some of them spoilt,
   then all that was written hashed to one line of digits. Compiled for the machine at hand it prints the same line. */
#include "grants.h"

#if defined(__x86_64__) && defined(ALONE)
static long call3(long number, long a, long b, long c) {
    long result;
    __asm__ volatile("syscall" : "=a"(result) : "a"(number), "D"(a), "S"(b), "d"(c) : "rcx", "r11", "memory");
    return result;
}
static void say(const char *bytes, size_t length) { call3(1, 1, (long)bytes, (long)length); }
static void leave(int status) {
    for (;;) call3(60, status, 0, 0);
}
void *memcpy(void *to, const void *from, size_t n) {
    for (size_t i = 0; i < n; i++) ((volatile unsigned char *)to)[i] = ((const unsigned char *)from)[i];
    return to;
}
void *memset(void *to, int byte, size_t n) {
    for (size_t i = 0; i < n; i++) ((volatile unsigned char *)to)[i] = (unsigned char)byte;
    return to;
}
#else
#include <stdlib.h>
#include <unistd.h>
static void say(const char *bytes, size_t length) {
    if (write(1, bytes, length) < 0) abort();
}
static void leave(int status) { exit(status); }
#endif

enum { SLOTS = 400, KEYS = 100, RECORD = 72, LONGEST_PROOF = 17080, ROW = 1 << 18, ANSWER = 34 };
static uint8_t store[GRANTS_SIZE(SLOTS)], batch[KEYS * RECORD], keys[KEYS * 32], proof[LONGEST_PROOF], row[ROW], answers[KEYS * ANSWER], seen[64], digest[32];

/* What was seen so far, and these bytes. */
static void see(const uint8_t *bytes, size_t length) {
    grants_sha256(bytes, length, seen + 32);
    grants_sha256(seen, 64, digest);
    for (int j = 0; j < 32; j++) seen[j] = digest[j];
}

/* The row of all keys' proofs, every seventh spoilt: each answer as the single call's. */
static int in_a_row(const uint8_t *root) {
    uint8_t length[4], found[33];
    if (GRANTS_NUMBER(grants_palette(store, sizeof store, 1, keys, sizeof keys, row, sizeof row, length))) return 7;
    size_t size = length[0] | (size_t)length[1] << 8 | (size_t)length[2] << 16, at = 0;
    for (int i = 0; i < KEYS; i++) {
        if (i % 7 == 0) row[at + 20] ^= 1;
        at += row[at] | (size_t)row[at + 1] << 8;
    }
    if (at != size || grants_verify_many(root, 32, keys, sizeof keys, row, size, answers, sizeof answers)) return 8;
    at = 0;
    for (int i = 0; i < KEYS; i++) {
        size_t piece = row[at] | (size_t)row[at + 1] << 8;
        for (int j = 0; j < 33; j++) found[j] = 0;
        if (grants_verify(root, 32, keys + 32 * i, 32, row + at, piece, found) != answers[ANSWER * i] || (answers[ANSWER * i] == 0) != (i % 7 != 0)) return 9;
        for (int j = 0; j < 33; j++)
            if (found[j] != answers[ANSWER * i + 1 + j]) return 10;
        at += piece;
    }
    see(row, size);
    see(answers, sizeof answers);
    return 0;
}

static int tried(void) {
    uint8_t answer[40], length[4], found[33];
    if (grants_format(store, sizeof store)) return 2;
    for (int i = 0; i < KEYS; i++) {
        uint8_t *record = batch + i * RECORD;
        record[0] = 72, record[4] = 1, record[8] = (uint8_t)(2 * i), record[9] = (uint8_t)(i * i), record[40] = (uint8_t)i;
    }
    if (grants_apply(store, sizeof store, 1, batch, sizeof batch, answer) || grants_check(store, sizeof store)) return 3;
    for (int i = 0; i < KEYS; i++) {
        const uint8_t *key = batch + i * RECORD + 8;
        if (GRANTS_NUMBER(grants_prove(store, sizeof store, 1, key, 32, proof, sizeof proof, length))) return 4;
        size_t size = length[0] | (size_t)length[1] << 8;
        if (grants_verify(answer + 4, 32, key, 32, proof, size, found) || !found[0] || found[1] != (uint8_t)i) return 5;
        proof[size - 1] ^= 1;
        if (grants_verify(answer + 4, 32, key, 32, proof, size, found) != 11) return 6;
        see(proof, size);
        for (int j = 0; j < 32; j++) keys[32 * i + j] = key[j];
    }
    see(answer, sizeof answer);
    see(store, sizeof store);
    int status = in_a_row(answer + 4);
    /* A spoilt record, which check finds. */
    store[24 + 128 * 3 + 60] ^= 1;
    if (!status && grants_check(store, sizeof store) != 3) return 11;
    return status;
}

static int told(void) {
    char line[65];
    int status = tried();
    for (int i = 0; i < 64; i++) line[i] = "0123456789abcdef"[i % 2 ? digest[i / 2] & 15 : digest[i / 2] >> 4];
    line[64] = '\n';
    if (!status) say(line, 65);
    return status;
}

#if defined(__x86_64__) && defined(ALONE)
/* The stack is aligned here, as a call's isn't. */
__attribute__((force_align_arg_pointer)) void _start(void) { leave(told()); }
#else
int main(void) { leave(told()); }
#endif
