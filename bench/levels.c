/* levels LEVEL: 4,096 proofs of 20 steps, each the library's own, checked by single calls, in rows of 256, and their chains of hashes by OpenSSL where that is linked; and check of
   the store that they are of. All in turns, the sum of each row's best, which other work on the machine disturbs least. Where a ratio comes near its bar or above it, there are
   more turns. It fails above a bar, and says by how much. */
#include "grants.h"

#include <stdio.h>
#include <stdlib.h>
#include <string.h>
#include <time.h>
#ifdef WITH_OPENSSL
#include <openssl/evp.h>
#endif

enum { SLOTS = 16384, LEAVES = 4096, BATCH = 1024, RECORD = 72, STEPS = 20, HEAD = 72, STEP = 33, PROOF = HEAD + STEP * STEPS, ROW = 256, ROWS = LEAVES / ROW, ANSWER = 34 };
enum { SINGLE, AT_ONCE, OPENSSL, CHECK, WAYS };
enum { RECORDS = 8199, TURNS = 25, MOST_TURNS = 150 };

static uint8_t store[GRANTS_SIZE(SLOTS)], batch[BATCH * RECORD], keys[LEAVES][32], proofs[LEAVES][PROOF], root[32], answers[ROW * ANSWER], other[ROW * ANSWER];

/* Milliseconds of processor time so far, which other work on the machine disturbs less than the clock's. */
static double now(void) {
    struct timespec t;
    clock_gettime(CLOCK_PROCESS_CPUTIME_ID, &t);
    return (double)t.tv_sec * 1e3 + (double)t.tv_nsec / 1e6;
}

static void must(int held, const char *what) {
    if (held) return;
    fprintf(stderr, "levels: %s\n", what);
    exit(2);
}

/* All leaves stand at 20 bits: 8 that the keys share, 12 of their number, then others. */
static void made(void) {
    uint8_t answer[40];
    must(!grants_format(store, sizeof store), "no store");
    for (int i = 0; i < LEAVES; i++) {
        uint8_t *record = batch + i % BATCH * RECORD, seed[2] = {(uint8_t)i, (uint8_t)(i >> 8)};
        memset(record, 0, RECORD);
        record[0] = 72, record[4] = 1;
        grants_sha256(seed, sizeof seed, record + 8);
        record[8] = 0xa5, record[9] = (uint8_t)(i >> 4), record[10] = (uint8_t)((i & 15) << 4 | (record[10] & 15)), record[40] = 1;
        memcpy(keys[i], record + 8, 32);
        if (i % BATCH == BATCH - 1) must(!grants_apply(store, sizeof store, (uint32_t)i / BATCH + 1, batch, sizeof batch, answer), "a batch is refused");
    }
    memcpy(root, answer + 4, 32);
    for (int i = 0; i < LEAVES; i++) {
        uint8_t length[4];
        must(!GRANTS_NUMBER(grants_prove(store, sizeof store, LEAVES / BATCH, keys[i], 32, proofs[i], PROOF, length)), "a proof is refused");
        must((length[0] | length[1] << 8) == PROOF, "a proof has other steps than 20");
    }
}

#ifdef WITH_OPENSSL
static EVP_MD *sha256;
static EVP_MD_CTX *context;

static void node(uint8_t kind, const uint8_t *left, const uint8_t *right, uint8_t *hash) {
    uint8_t message[65];
    message[0] = kind;
    memcpy(message + 1, left, 32);
    memcpy(message + 33, right, 32);
    must(EVP_DigestInit_ex2(context, sha256, NULL) == 1 && EVP_DigestUpdate(context, message, sizeof message) == 1 && EVP_DigestFinal_ex(context, hash, NULL) == 1, "OpenSSL");
}

/* The hashes alone: it looks at no form. */
static void by_openssl(int from) {
    for (int i = from; i < from + ROW; i++) {
        const uint8_t *proof = proofs[i];
        uint8_t hash[32];
        node(1, proof + 8, proof + 40, hash);
        for (const uint8_t *step = proof + HEAD; step < proof + PROOF; step += STEP)
            if (step[0] == 0) node(0, hash, step + 1, hash);
            else node(0, step + 1, hash, hash);
        must(!memcmp(hash, root, 32), "OpenSSL finds another root");
    }
}
#endif

static void one_by_one(int from) {
    for (int i = 0; i < ROW; i++) other[ANSWER * i] = (uint8_t)grants_verify(root, 32, keys[from + i], 32, proofs[from + i], PROOF, other + ANSWER * i + 1);
}

static void at_once(int from) {
    must(!grants_verify_many(root, 32, keys[from], ROW * 32, proofs[from], ROW * PROOF, answers, sizeof answers), "a row is refused");
}

static double best[WAYS][ROWS];

static void timed(int way, int row, double start) {
    double took = now() - start;
    if (best[way][row] == 0 || took < best[way][row]) best[way][row] = took;
}

static double all(int way) {
    double sum = 0;
    for (int row = 0; row < ROWS; row++) sum += best[way][row];
    return sum;
}

static void turn(void) {
    for (int row = 0; row < ROWS; row++) {
        double start = now();
        one_by_one(row * ROW);
        timed(SINGLE, row, start);
        start = now();
        at_once(row * ROW);
        timed(AT_ONCE, row, start);
        must(!memcmp(answers, other, sizeof answers) && answers[0] == 0 && answers[1] == 1, "a row answers other than single calls");
#ifdef WITH_OPENSSL
        start = now();
        by_openssl(row * ROW);
        timed(OPENSSL, row, start);
#endif
    }
    double start = now();
    must(!grants_check(store, sizeof store), "the store isn't sound");
    timed(CHECK, 0, start);
}

static int has_sha_instructions(void) {
    char line[4096];
    FILE *file = fopen("/proc/cpuinfo", "r");
    int found = 0;
    while (file && !found && fgets(line, sizeof line, file)) found = strstr(line, " sha_ni") || strstr(line, " sha2 ") || strstr(line, " sha2\n");
    if (file) fclose(file);
    return found;
}

struct bar {
    const char *level, *what;
    int way;
    double most;
};
/* Rows of 256 beside single calls and beside OpenSSL with the machine's SHA instructions. Of aarch64 the aim was 0.70 (docs/FIGURES.md). */
static const struct bar bars[] = {
    {"x86-64", "single-calls", SINGLE, 0.60},    {"x86-64", "openssl-with-sha-instructions", OPENSSL, 1.5},   {"x86-64-v3", "single-calls", SINGLE, 0.36},
    {"x86-64-v3", "openssl-with-sha-instructions", OPENSSL, 0.8}, {"x86-64-v4", "single-calls", SINGLE, 0.28}, {"x86-64-v4", "openssl-with-sha-instructions", OPENSSL, 0.8},
    {"aarch64", "single-calls", SINGLE, 0.70},
};
enum { BARS = sizeof bars / sizeof bars[0] };

static int holds(const struct bar *bar, const char *level, int sha) { return !strcmp(bar->level, level) && (bar->way != OPENSSL || (sha && all(OPENSSL) > 0)); }

int main(int count, char **words) {
    const char *level = count == 2 ? words[1] : "";
    int sha = has_sha_instructions(), turns = 0, close = 1, missed = 0;
#ifdef WITH_OPENSSL
    sha256 = EVP_MD_fetch(NULL, "SHA256", NULL);
    context = EVP_MD_CTX_new();
#endif
    made();
    while (turns < TURNS || (close && turns < MOST_TURNS)) {
        turn();
        turns++;
        close = 0;
        for (int i = 0; i < BARS; i++) close |= holds(&bars[i], level, sha) && all(AT_ONCE) > 0.95 * bars[i].most * all(bars[i].way);
    }
    const double each = 1e3 / LEAVES;
    printf("level %s: a proof of %d steps by a single call %.2fus, in a row of %d %.2fus", level, STEPS, each * all(SINGLE), ROW, each * all(AT_ONCE));
    if (all(OPENSSL) > 0) printf(", its hashes by OpenSSL %s SHA instructions %.2fus", sha ? "with" : "without", each * all(OPENSSL));
    printf("; check %.3fus a record of %d; %d turns\n", 1e3 / RECORDS * best[CHECK][0], RECORDS, turns);
    for (int i = 0; i < BARS; i++) {
        const struct bar *bar = &bars[i];
        if (!holds(bar, level, sha)) continue;
        double ratio = all(AT_ONCE) / all(bar->way);
        printf("bar rows-of-256-beside-%s %s %.3f bar %.2f\n", bar->what, level, ratio, bar->most);
        if (ratio <= bar->most) continue;
        printf("bench: rows-of-256-beside-%s at %s is above its bar of %.2f by %.1f %%, after %d turns\n", bar->what, level, bar->most, 100 * (ratio / bar->most - 1), turns);
        missed = 1;
    }
    return missed;
}
