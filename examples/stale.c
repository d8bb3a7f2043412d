/* SPDX-License-Identifier: Apache-2.0 */
/* The composer's editor refuses the old list. A plugin's grant is withdrawn; whoever still shows the list from before, signature and all, gets nowhere with an
 * editor that keeps what docs/EDITOR.md says. `examples/stale.rs`, `stale.mjs` and `stale.py` tell the same; all four print examples/stale.out.
 *
 *   make lib
 *   cc -Iinclude examples/stale.c target/native/libgrants.a -o stale */
#include "grants.h"
#include "grants_statement.h"

#include <stdio.h>
#include <stdlib.h>
#include <string.h>

enum { SLOTS = 20, RECORD = 72, LONGEST_PROOF = 17080, TEXT = 256 };
/* Monday, the 4th of May 2026, nine o'clock. */
static const int64_t MONDAY = 1777885200, HOUR = 3600;

static uint8_t *store;

/* A proof, and a signed text, as they travel. */
struct proof {
    uint8_t bytes[LONGEST_PROOF];
    size_t length;
};
struct list {
    char text[TEXT];
    int signed_by_desk;
};

static uint32_t number_at(const uint8_t *bytes) {
    return bytes[0] | (uint32_t)bytes[1] << 8 | (uint32_t)bytes[2] << 16 | (uint32_t)bytes[3] << 24;
}

/* A name stands for its SHA-256. */
static void name(const char *words, uint8_t key[32]) {
    grants_sha256((const uint8_t *)words, strlen(words), key);
}

/* The desk publishes one change, and signs what `grants root --out` writes of it. That the text carries its signature stands here for a check by ssh-keygen, minisign or
   openssl (docs/SIGNING.md): whoever changes the text loses it. */
static struct list publish(uint32_t version, const char *words, const char *value, const char *made, const char *not_after) {
    uint8_t record[RECORD] = {0}, answer[40];
    struct list list = {"", 1};
    record[0] = value ? 72 : 40;
    record[4] = value ? 1 : 2;
    name(words, record + 8);
    if (value) name(value, record + 40);
    if (grants_apply(store, GRANTS_SIZE(SLOTS), version, record, RECORD, answer)) abort();
    size_t at = (size_t)snprintf(list.text, TEXT, "the root of a grant store\nversion %u\nroot ", (unsigned)number_at(answer));
    for (int i = 4; i < 36; i++) at += (size_t)snprintf(list.text + at, TEXT - at, "%02x", answer[i]);
    at += (size_t)snprintf(list.text + at, TEXT - at, "\nmade %s\n", made);
    if (not_after) snprintf(list.text + at, TEXT - at, "not-after %s\n", not_after);
    return list;
}

/* Any copy of the store shows what it has. */
static struct proof prove(uint32_t version, const char *words) {
    struct proof proof;
    uint8_t key[32], length[4];
    name(words, key);
    uint32_t refused = grants_prove(store, GRANTS_SIZE(SLOTS), version, key, 32, proof.bytes, LONGEST_PROOF, length);
    proof.length = refused ? 0 : number_at(length);
    return proof;
}

/* What an editor does with a list and a proof from anybody: the signature, the form, whether it is stale, and only then the proof. */
static void may_open(const char *when, struct grants_seen *seen, int64_t now, const struct list *list, const char *words, const struct proof *proof) {
    static const uint8_t nothing[32];
    struct grants_statement statement;
    enum grants_verdict verdict;
    uint8_t key[32], found[33];
    printf("%s: ", when);
    if (!list->signed_by_desk) {
        printf("refused, the desk didn't sign this list\n");
        return;
    }
    if (!grants_statement_read(list->text, strlen(list->text), &statement)) {
        printf("refused, this is no statement\n");
        return;
    }
    verdict = grants_seen_take(seen, &statement, now);
    if (verdict != GRANTS_FRESH) {
        printf("refused, the list of version %u is %s\n", (unsigned)statement.version, grants_verdict_words(verdict));
        return;
    }
    printf("the list of version %u is fresh; ", (unsigned)statement.version);
    if (memcmp(statement.root, nothing, 32) == 0) {
        printf("nothing is granted\n");
        return;
    }
    name(words, key);
    uint32_t refused = grants_verify(statement.root, 32, key, 32, proof->bytes, proof->length, found);
    if (refused) printf("the proof shows nothing, refused with %u\n", (unsigned)refused);
    else printf(found[0] ? "the grant stands\n" : "there is no such grant\n");
}

int main(void) {
    static const char *score = "chords symphony";
    struct grants_seen composer = {0}, traveller = {0};
    store = malloc(GRANTS_SIZE(SLOTS));
    if (!store || grants_format(store, GRANTS_SIZE(SLOTS))) return 1;

    /* Version 1 grants, version 2 grants another plugin something else, version 3 withdraws the first. Each list is good for two days. */
    publish(1, score, "read", "2026-05-04T08:00:00Z", "2026-05-06T08:00:00Z");
    struct list old = publish(2, "tuner sonata", "read", "2026-05-04T09:00:00Z", "2026-05-06T09:00:00Z");
    struct proof then = prove(2, score);
    struct list fresh = publish(3, score, NULL, "2026-05-05T09:00:00Z", "2026-05-07T09:00:00Z");
    struct proof now = prove(3, score);

    may_open("monday", &composer, MONDAY + HOUR, &old, score, &then);
    may_open("tuesday, withdrawn", &composer, MONDAY + 25 * HOUR, &fresh, score, &now);

    /* A plugin brings its own copy of the list: all of it was signed, and all of it was true on monday. */
    may_open("the old list again", &composer, MONDAY + 26 * HOUR, &old, score, &then);
    may_open("the old proof with the new list", &composer, MONDAY + 26 * HOUR, &fresh, score, &then);
    struct list forged = old;
    memcpy(strstr(forged.text, "version 2"), "version 9", 9);
    forged.signed_by_desk = 0;
    may_open("the old list under a higher number", &composer, MONDAY + 26 * HOUR, &forged, score, &then);

    /* An editor that was offline has seen no newer list. The date is what ends it, also for a clock that is set back. */
    may_open("offline, before its date", &traveller, MONDAY + 47 * HOUR, &old, score, &then);
    may_open("offline, after its date", &traveller, MONDAY + 49 * HOUR, &old, score, &then);
    may_open("offline, the clock set back", &traveller, MONDAY, &old, score, &then);
    may_open("online again", &traveller, MONDAY + 50 * HOUR, &fresh, score, &then);
    may_open("online, the clock a day behind", &traveller, MONDAY + 24 * HOUR, &fresh, score, &now);

    /* What a desk must not sign: a list without a date, and two lists of one number. */
    struct list undated = publish(4, "tuner sonata", NULL, "2026-05-06T09:00:00Z", NULL);
    may_open("without a date", &composer, MONDAY + 49 * HOUR, &undated, score, &now);
    struct list twice = fresh;
    memcpy(strstr(twice.text, "\nroot ") + 6, strstr(old.text, "\nroot ") + 6, 64);
    may_open("version 3 signed with another root", &composer, MONDAY + 49 * HOUR, &twice, score, &then);

    /* With the last grant gone the root is 32 zero bytes: itself the proof. */
    struct list empty = publish(5, "tuner sonata", NULL, "2026-05-06T10:00:00Z", "2026-05-08T10:00:00Z");
    may_open("the empty list", &composer, MONDAY + 50 * HOUR, &empty, score, &then);
    printf("the composer's editor keeps: version %u\n", (unsigned)composer.version);
    free(store);
    return 0;
}
