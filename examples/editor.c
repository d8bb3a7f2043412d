/* A marketplace publishes grants, and an editor checks one: format, apply, count, at, prove, verify, and what refusals look like.
 *
 *   make lib
 *   cc -Iinclude examples/editor.c target/native/libgrants.a -o editor
 *
 * (That library is for the machine at hand; after `make install`, `cc examples/editor.c $(pkg-config --cflags --libs grants) -o editor`.)
 * An editor needs `granted` alone: a root whose signature it has checked, a key, and a proof from anybody. */
#include "grants.h"

#include <stdio.h>
#include <stdlib.h>
#include <string.h>

enum { CAPACITY = 20, STORE = GRANTS_SIZE(CAPACITY), RECORD = 72, LONGEST_PROOF = 17080 };

/* The store may be anywhere: on the heap, in a mapped file, in an array. The library allocates nothing. */
static uint8_t *store, *proof;

static uint32_t number_at(const uint8_t *bytes) {
    return bytes[0] | (uint32_t)bytes[1] << 8 | (uint32_t)bytes[2] << 16 | (uint32_t)bytes[3] << 24;
}

/* A batch record: insert the key with a value, or delete it where the value is null. A batch's keys ascend. */
static void ask(uint8_t record[RECORD], const uint8_t key[32], const uint8_t *value) {
    memset(record, 0, RECORD);
    record[0] = value ? 72 : 40;
    record[4] = value ? 1 : 2;
    memcpy(record + 8, key, 32);
    if (value) memcpy(record + 40, value, 32);
}

/* What a marketplace does: publish a version under a number of its own, whose root it then signs. */
static uint32_t publish(uint32_t number, const uint8_t *batch, size_t records, uint8_t root[32]) {
    uint8_t answer[40];
    uint32_t refused = grants_apply(store, STORE, number, batch, records * RECORD, answer);
    if (refused) return refused;
    memcpy(root, answer + 4, 32);
    printf("version %u, new records: %u, root ", (unsigned)number_at(answer), (unsigned)number_at(answer + 36));
    for (int i = 0; i < 32; i++) printf("%02x", root[i]);
    printf("\n");
    return 0;
}

/* What a marketplace's own page does: how many grants a version has, and those from a position on, in the order of their keys. */
static void list(uint32_t version, uint64_t from, uint64_t most) {
    uint8_t count[8], grant[64];
    uint64_t n;
    if (grants_count(store, STORE, version, count)) return;
    n = number_at(count) | (uint64_t)number_at(count + 4) << 32;
    printf("version %u has %llu\n", (unsigned)version, (unsigned long long)n);
    for (uint64_t i = from; i < n && i - from < most; i++) {
        if (grants_at(store, STORE, version, i, grant)) return;
        printf("  %llu: key %02x.., value %02x..\n", (unsigned long long)i, grant[0], grant[32]);
    }
}

/* What any copy of the store does: show, for a version, whether the key is there. */
static size_t show(uint32_t version, const uint8_t key[32]) {
    uint8_t length[4];
    uint32_t refused = grants_prove(store, STORE, version, key, 32, proof, LONGEST_PROOF, length);
    return refused ? 0 : number_at(length);
}

/* What an editor does. Unless the proof shows that the grant stands, nothing is opened. A signed root of 32 zero bytes is itself the proof that
   nothing is granted: there is no other. */
static int granted(const uint8_t root[32], const uint8_t key[32], size_t length) {
    static const uint8_t nothing[32];
    uint8_t found[33];
    if (memcmp(root, nothing, 32) == 0) {
        printf("editor: nothing is granted\n");
        return 0;
    }
    uint32_t refused = grants_verify(root, 32, key, 32, proof, length, found);
    if (refused) {
        printf("editor: refused with %u, the proof shows nothing\n", (unsigned)refused);
        return 0;
    }
    printf("editor: %s\n", found[0] ? "the grant stands" : "there is no such grant");
    return found[0];
}

int main(void) {
    uint8_t plugin[32], other[32], score[32], first[32], second[32], third[32], batch[2 * RECORD], length[4], found[33], grant[64];
    size_t proof_length;
    uint64_t read;
    memset(plugin, 0x40, 32);
    memset(other, 0x80, 32);
    memset(score, 7, 32);
    store = malloc(STORE);
    proof = malloc(LONGEST_PROOF);
    if (!store || !proof || grants_format(store, STORE)) return 1;

    /* Two grants are published as version 10; then, as version 20, one of them is withdrawn. */
    ask(batch, plugin, score);
    ask(batch + RECORD, other, score);
    if (publish(10, batch, 2, first)) return 1;
    ask(batch, plugin, NULL);
    if (publish(20, batch, 1, second)) return 1;

    /* Two grants, then one. A page of a long list is read by position; the rest of it isn't. */
    list(10, 0, 100);
    list(20, 0, 100);
    list(10, 1, 1);

    /* The grant stood in version 10, and so in 15, which reads as 10; not in version 20. */
    proof_length = show(10, plugin);
    if (!granted(first, plugin, proof_length)) return 1;
    proof_length = show(15, plugin);
    if (!granted(first, plugin, proof_length)) return 1;
    proof_length = show(20, plugin);
    if (granted(second, plugin, proof_length)) return 1;

    /* An old proof under the new root is refused. */
    proof_length = show(10, plugin);
    if (granted(second, plugin, proof_length)) return 1;

    /* With the last grant withdrawn the version is empty: its root says so, and there is no proof. */
    ask(batch, other, NULL);
    if (publish(21, batch, 1, third)) return 1;
    printf("an empty version: refused with %u\n", (unsigned)grants_prove(store, STORE, 21, plugin, 32, proof, LONGEST_PROOF, length));
    if (granted(third, plugin, 0)) return 1;

    /* Refused are also keys out of order, a number that is not above the latest, a version that is not kept, a position past the last grant, and a
       proof for which there is no room; none of these writes anything. */
    ask(batch, other, score);
    ask(batch + RECORD, plugin, score);
    printf("keys out of order: refused with %u\n", (unsigned)publish(22, batch, 2, second));
    printf("number 21 again: refused with %u\n", (unsigned)publish(21, batch, 1, second));
    printf("version 22: refused with %u\n", (unsigned)grants_root(store, STORE, 22, second));
    printf("position 2: refused with %u\n", (unsigned)grants_at(store, STORE, 10, 2, grant));
    printf("no room: refused with %u\n", (unsigned)grants_prove(store, STORE, 10, plugin, 32, proof, proof_length - 1, length));
    printf("the store is %s\n", grants_check(store, STORE) == 0 ? "sound" : "not sound");

    /* Of a damaged store a read says which record is missing. Slot 0 has the plug-in's grant of version 10: first a byte of it is spoilt, then all
       of it is lost. */
    store[GRANTS_SIZE(0)] ^= 1;
    read = grants_get(store, STORE, 10, plugin, 32, found);
    printf("a byte spoilt: refused with %u, slot %d\n", (unsigned)GRANTS_NUMBER(read), (int)GRANTS_SLOT(read));
    memset(store + GRANTS_SIZE(0), 0, GRANTS_SIZE(1) - GRANTS_SIZE(0));
    read = grants_get(store, STORE, 10, plugin, 32, found);
    printf("a record lost: refused with %u, slot %d\n", (unsigned)GRANTS_NUMBER(read), (int)GRANTS_SLOT(read));
    free(proof);
    free(store);
    return 0;
}
