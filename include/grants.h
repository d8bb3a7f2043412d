/* SPDX-License-Identifier: Apache-2.0 */
/* The grant store: a versioned, authenticated key-value store over lent memory.
 *
 * Each publishing of grants is a version, named by a number of the caller's, with one SHA-256 root. From any copy of the store comes a short proof that a key has a value in a
 * version, or that it has none; whoever has the version's root checks it with grants_verify alone. examples/editor.c shows all of it.
 *
 * Each call returns 0 where it is accepted, else a number of refusal; a refused call writes nothing, its answer included. The reads (root, get,
 * count, at, prove, palette, each also by a table, and pocket_prove) return 64 bits: the number in the low half, and in the high half a slot + 1 where they name one; who keeps 32 bits has the number
 * alone. Buffers lent to one call do not overlap. A pointer is never null, also where its length is 0. The calls keep no state, take no lock and allocate nothing; a
 * store may be used from any thread that owns it. All numbers in buffers are little-endian. Every call takes any bytes: bad input is refused.
 * The stack that each call takes is in docs/FIGURES.md; every byte of a store, a batch and a proof is in docs/FORMAT.md, and
 * what the library does, complete and in words, in docs/RULES.md. The archive to link is target/native/libgrants.a of the checkout, or what
 * `pkg-config --libs grants` names after `make install`.
 *
 *   1  the store's length isn't 24 + 128n, n in 1 to 16,384; a table: it hasn't as many entries as the store has slots
 *   2  a header field isn't right, its capacity isn't n, or oldest is above latest
 *   3  the store isn't sound (check, apply, prune, changes, figures, finding), or the walk says so (reads); rescue: no version can be rescued
 *   4  the batch isn't whole records in form, or has over 1,024
 *   5  the batch's keys aren't strictly ascending
 *   7  fewer free slots than new records
 *   8  the version isn't in oldest to latest; figures: not a range of 1 to 1,024 such versions
 *   9  the proof, the proofs together, the list, the figures or the message are longer than the room
 *  10  the proof isn't one whole record in form (of a shelf one or two), no byte over; or the message isn't in its one encoding
 *  11  the proof is in form, but doesn't hold
 *  12  a key or root handed in isn't 32 bytes, or a list of keys isn't 0 to 256 whole keys
 *  13  a comparison has more visits than the limit
 *  14  the version is empty, so there is no proof
 *  15  a raw key or value has another length than 1 to 256, or 1 to 4,096 bytes, or doesn't hash to what the proof holds
 *  16  the table beside the store isn't its right one
 *  17  a record is lost: a child that is wanted stands in no slot (reads)
 *  18  the number isn't above latest
 *  19  a leaf is shown with more than 32 steps, outside the pocket profile
 *  20  the position isn't below the number of grants
 *  21  a shelf has at most 12 bits
 *
 * 'Refused' below names a call's numbers in the order in which it tests for them: where several are deserved, the first is given.
 */
#ifndef GRANTS_H
#define GRANTS_H

#include <stddef.h>
#include <stdint.h>

/* What a read returned: the number, and the spoilt slot that it named beside 3, -1 where it named none. */
#define GRANTS_NUMBER(r) ((uint32_t)(r))
#define GRANTS_SLOT(r) ((int64_t)((uint64_t)(r) >> 32) - 1)

/* The bytes of a store of n slots, and of one of the old form, whose inner records have no counts. Every call but grants_over refuses a store
   of the old form, with 1 by its size or with 2 by the kind in its header (24 + 120 x 16 is 24 + 128 x 15). */
#define GRANTS_SIZE(n) (24 + 128 * (size_t)(n))
#define GRANTS_OLD_SIZE(n) (24 + 120 * (size_t)(n))

/* The version of this header: major, minor and patch in a byte each from the high end, 0.1.0 here. docs/RELEASE.md says what stays the same within a major one. */
#define GRANTS_VERSION 0x00010000

/* What GRANTS_SIZE is made of: a header, and a slot for each record that there is room for, 1 to 16,384. */
#define GRANTS_HEADER_BYTES 24
#define GRANTS_SLOT_BYTES 128

#ifdef __cplusplus
extern "C" {
#endif

/* Makes a fresh, empty store of any bytes of the right length, GRANTS_SIZE(n) for n slots: version 0, which holds no grant, is the only one kept.
   A record takes a slot, and a publishing makes a record for each node that it changes. Refused: 1. */
uint32_t grants_format(uint8_t *store, size_t store_len);

/* Whether the store is sound: every kept version is a whole tree with every hash and every count true, and each record stands in exactly the kept versions of
   its lifetime. A store that only these calls wrote always is. Refused: 1, 2, 3. */
uint32_t grants_check(const uint8_t *store, size_t store_len);

/* Publishes a version under a number, any above latest, so 4,294,967,295 at most once and 0 never: the grants of the latest version with the batch
   applied. From then on latest is that number; the versions between, which no one published, read as the one before them. A batch is records of 72 bytes, at most 1,024 of them, with
   keys that ascend strictly as byte strings; an empty batch is one too.
     insert: length 72 (4 bytes), kind 1 (2), 2 zero bytes, key 32, value 32
     delete: length 40 (4 bytes), kind 2 (2), 2 zero bytes, key 32, 32 zero bytes
   Inserting the value that is there already, and deleting a key that isn't there, are no change.
   answer: the number (4 bytes), the root (32), how many records are new (4). Refused: 1, 2, 3, 4, 5, 18, 7. */
uint32_t grants_apply(uint8_t *store, size_t store_len, uint32_t number, const uint8_t *batch, size_t batch_len, uint8_t answer[40]);

/* Frees every record retired since the version or earlier, and keeps no older version; between two publishings it keeps the tree of the earlier
   one. freed: how many records were freed, 4 bytes.
   Refused: 1, 2, 3, 8. */
uint32_t grants_prune(uint8_t *store, size_t store_len, uint32_t version, uint8_t freed[4]);

/* The root of a version, 32 zero bytes where it holds no grant; between two publishings that of the earlier one. It tests the header and the
   root's record, not soundness: where no slot in form is that root, but a used slot's version, retired-since, bit count and bits say that it was,
   it is refused with 3 and the lowest such slot; a lost root is taken for an empty version. Refused: 1, 2, 8, 3. */
uint64_t grants_root(const uint8_t *store, size_t store_len, uint32_t version, uint8_t root[32]);

/* A key in a version. found: 1 and the value (32), or 0 and 32 zero bytes where the key is absent. It tests the header and what it meets on the
   way to the key, not soundness. The first trouble met is given: 17 for a child that is lost, 3 with its slot for one that is spoilt, which is a
   used slot, not in form, whose version, bit count and bits are the child's; 3 alone for a leaf whose key doesn't begin with its place.
   Refused: 12, 1, 2, 8, 3 or 17. */
uint64_t grants_get(const uint8_t *store, size_t store_len, uint32_t version, const uint8_t *key, size_t key_len, uint8_t found[33]);

/* How many grants a version has. count: 8 bytes. It is the sum of the two counts in the root's record, 1 where that is a leaf, 0 where the version has no
   root; no other record is looked at. Of a sound store that is the number of its grants; of one that isn't it may be anything up to 8,589,934,590.
   Refused: 1, 2, 8, 3 (with its slot, the root's record is spoilt). */
uint64_t grants_count(const uint8_t *store, size_t store_len, uint32_t version, uint8_t count[8]);

/* The grant at a position of a version, 0 the one with the least key. grant: key 32, value 32. It goes down by the counts in the records and tests what it
   meets, not soundness. A position that isn't below grants_count is refused with 20, before anything below the root is looked at; then the first trouble
   met is given as in grants_get, and 3 alone also for a child that isn't there and for a leaf with positions left over, which wrong counts lead
   to. Refused: 1, 2, 8, 3 (of the root), 20, 3 or 17. */
uint64_t grants_at(const uint8_t *store, size_t store_len, uint32_t version, uint64_t position, uint8_t grant[64]);

/* Writes the proof that a key is in a version, or that it isn't, to the front of room; the rest of room stays. length: of the proof, 4 bytes.
   No proof is longer than 17,080 bytes; the shortest has 72, of absence 112. A version without a grant has no proof (14): its root of 32 zero
   bytes, signed, is itself the proof that nothing is granted. It tests the header and what it meets on its way, not soundness: what comes from
   a store that isn't sound, grants_verify may refuse. The first trouble met is given as in grants_get: on the way to the key, then to its left
   neighbour, then to its right one. Refused: 12, 1, 2, 8, 14, 3 or 17, 9. */
uint64_t grants_prove(const uint8_t *store, size_t store_len, uint32_t version, const uint8_t *key, size_t key_len, uint8_t *room,
                      size_t room_len, uint8_t length[4]);

/* Writes the proofs for a list of keys in a version one after the other to the front of room, in the order asked, a key asked for twice twice: exactly
   the bytes that grants_prove gives for each; the rest of room stays. keys: 32 bytes each, 0 to 256 of them. length: of all proofs together, 4 bytes, at
   most 4,372,480; each proof begins with its own length, 4 bytes, so they can be cut apart. Where grants_prove would refuse one of the keys for a reason
   other than room, the first such refusal in the order asked is the answer. Without keys it is accepted with length 0, in an empty version too.
   It returns 64 bits as grants_prove does: the first refusal's slot beside its number. Refused: 12, 1, 2, 8, then of the first key refused 14, 3 or 17; then 9. */
uint64_t grants_palette(const uint8_t *store, size_t store_len, uint32_t version, const uint8_t *keys, size_t keys_len, uint8_t *room,
                        size_t room_len, uint8_t length[4]);

/* The same as grants_prove for a device that keeps little: where a leaf that the proof shows has more than 32 steps, the key's or a neighbour's, it is
   refused with 19. Its proofs have at most 1,128 bytes, of absence 2,296; else they are the bytes of grants_prove.
   Refused: 12, 1, 2, 8, 14, 3 or 17, 19, 9. */
uint64_t grants_pocket_prove(const uint8_t *store, size_t store_len, uint32_t version, const uint8_t *key, size_t key_len, uint8_t *room,
                             size_t room_len, uint8_t length[4]);

/* What changed from one kept version to another: every key added, removed or given another value, in key order, each once. The list goes to the
   front of room as records of 72 bytes; the rest of room stays. Either version may be the later one; swapped, they list what undoes it.
     insert: length 72 (4 bytes), kind 1 (2), 2 zero bytes, key 32, the new value 32
     delete: length 72 (4 bytes), kind 2 (2), 2 zero bytes, key 32, the old value 32
   A key given another value is a delete and then an insert, so a key may stand twice. The list is no batch: a batch's delete carries no value.
   limit: how many places of the two trees may be visited, the empty place first, then both longer places wherever one of the trees has an inner
   node and they don't have the same record; 32,769 is always enough. records: how many the list has, 4 bytes. Refused: 1, 2, 3, 8, 13, 9. */
uint32_t grants_changes(const uint8_t *store, size_t store_len, uint32_t first, uint32_t second, uint32_t limit, uint8_t *room,
                        size_t room_len, uint8_t records[4]);

/* The figures of the kept versions from first to last, 1 to 1,024 of them, published or not, each counted over that version's tree. For each version 16
   bytes at the front of room; the rest of room stays:
     leaves, which are its grants (4 bytes), inner nodes (4), the longest path (4), the sum of all path lengths (4)
   The path of a grant has as many steps as its proof; a version without a grant has zeros. totals: how many different records stand in the range's trees (4
   bytes), and the records of each version added up (4), at most 16,777,216. Refused: 1, 2, 3, 8 (any other range), 9. */
uint32_t grants_figures(const uint8_t *store, size_t store_len, uint32_t first, uint32_t last, uint8_t *room, size_t room_len,
                        uint8_t totals[8]);

/* Rescues what is good of a damaged store: makes in target, a buffer of equal length, a sound store of the longest run of versions, none before
   oldest, that ends at latest and whose trees are whole in the source. The source may have any contents; its header isn't looked at, so oldest (0
   where all that is good is wanted) and latest are the caller's. The root of a version is the newest root record not above it, and a version has none where that one was
   retired by then: it isn't taken as empty, and ends the run. Records keep their slots, retired-since is set afresh from the run's trees, and of records that share version and place the lowest slot
   is used. The target's former bytes don't matter; a refused call leaves them.
   WARNING: compare the root of latest in the target with the root that was signed for it. A root record whose retired-since was damaged to 0 or
   upwards, where the newer root record is lost, covers later versions too: withdrawn grants then seem in force there. The store can't know; the caller's latest and
   the signed root are the only guard.
   answer: the run's first version (4 bytes), records kept as they were (4), kept with another retired-since (4), used slots left out (4): those of
   the two buffers compared. Refused: 1 (either length is wrong, or they differ), 2 (oldest above latest), 3 (no version). */
uint32_t grants_rescue(const uint8_t *source, size_t source_len, uint32_t oldest, uint32_t latest, uint8_t *target, size_t target_len,
                       uint8_t answer[16]);

/* What a forged proof would cost. Of a proof that grants_verify accepts for a key against the root of a version of this store: whether it tells the truth
   about that version, of its key and of each neighbour that it shows; and if it doesn't, the messages that it took. docs/FORGERY.md says it in plain words.
   finding, 131 bytes:
     0, then zero bytes: the proof tells the truth
     1, then two messages of 65 bytes: they differ, and their SHA-256 is the same
     2, then a message of 65 bytes, then zero bytes: its SHA-256 is 32 zero bytes
   The messages are among those of the version's nodes and those hashed while checking. It is proved that a proof that says something false always gives 1 or
   2, and that a true one never does; no one knows such messages, so 0 is what to expect. Refused: 12, 1, 2, 3, 8, 14, 10, 11. */
uint32_t grants_finding(const uint8_t *store, size_t store_len, uint32_t version, const uint8_t *key, size_t key_len, const uint8_t *proof,
                        size_t proof_len, uint8_t finding[131]);

/* Makes in the target, of GRANTS_SIZE(n) bytes, the store of a source of the old form, of GRANTS_OLD_SIZE(n) bytes: slots, versions, roots, reads and
   proofs stay as they are, and the counts of the inner records are filled in. The source is checked where it lies; the target's former bytes don't
   matter, and a refused call leaves them. Moved back again it is the source, byte for byte.
   Refused: 1 (a length is wrong, or they are not of the same capacity), 2, 3 (the source isn't sound). */
uint32_t grants_over(const uint8_t *source, size_t source_len, uint8_t *target, size_t target_len);

/* And back: in the target, of GRANTS_OLD_SIZE(n) bytes, the store of a source of GRANTS_SIZE(n) bytes, in the old form. Refused: 1, 2, 3. */
uint32_t grants_back(const uint8_t *source, size_t source_len, uint8_t *target, size_t target_len);

/* What a proof shows of a key against a root: all that an editor needs. The root must come from who signs it; the proof may come from anybody.
   found: 1 and the value for 'present', 0 and 32 zero bytes for 'absent'. Any number but 0 means that the proof shows nothing.
   Where the signed root is 32 zero bytes nothing is granted, and no proof is needed: none is accepted against it, short of a message whose SHA-256 is 32
   zero bytes, which no one knows (docs/FORGERY.md).
   Refused: 12, 10, 11. */
uint32_t grants_verify(const uint8_t *root, size_t root_len, const uint8_t *key, size_t key_len, const uint8_t *proof, size_t proof_len,
                       uint8_t found[33]);

/* Many proofs at once against one root, what grants_verify answers for each, in less time than as many calls of it. keys: 32 bytes each, 0 to
   256 of them. proofs: one piece for each key, in their order, one after the other as grants_palette gives them; each is as long as its first 4 bytes
   say, at least 4. answers: for each key 34 bytes, at the front; the rest stays. The first is the number that grants_verify would answer, 0, 10 or 11,
   the other 33 are what it would leave in an array of zeros: where the first is 0, 1 and the value, or 0 and 32 zero bytes. So look at each key's number: 0 from the
   call itself says only that each has its answer. Refused: 12 (the root isn't 32 bytes, or not 0 to 256 whole keys), 10 (the bytes aren't as many
   pieces as keys, or some are over), 9 (fewer than 34 bytes a key). */
uint32_t grants_verify_many(const uint8_t *root, size_t root_len, const uint8_t *keys, size_t keys_len, const uint8_t *proofs, size_t proofs_len,
                            uint8_t *answers, size_t answers_len);

/* The same as grants_verify for proofs of at most 32 steps for each leaf shown, so of at most 2,296 bytes: a longer one in form is refused with 19, whether
   it holds or not. Refused: 12, 10, 19, 11. */
uint32_t grants_pocket_verify(const uint8_t *root, size_t root_len, const uint8_t *key, size_t key_len, const uint8_t *proof, size_t proof_len,
                              uint8_t found[33]);

/* The version of the library that is linked, in the form of GRANTS_VERSION: a caller may hold the one against the other. Never refused; no number of refusal. */
uint32_t grants_version(void);

/* What a proof shows of a key of a shelf against its list's root. A shelf of 0 to 12 bits is more grants than one store holds, under one signed root: the
   grants whose keys begin with the same bits are in one store, its part, and the list is a store whose keys are those bits followed by zeros, 32 bytes, each with
   the root of its part; a part without grants isn't in the list. The proof is the list's record (grants_prove) for the part's key, followed, if
   that shows a presence, by the part's record for the key, each as long as its first 4 bytes say: at most 17,080 bytes each. found: as in grants_verify. Where the list shows
   that the part is absent, so is the key. Where the list's root is 32 zero bytes the shelf has no grants, and there is no proof.
   Refused: 12, 21, 10 (not one or two whole records in form, a second exactly if the first shows a presence, or a byte is over), 11. */
uint32_t grants_shelf_verify(const uint8_t *root, size_t root_len, uint32_t bits, const uint8_t *key, size_t key_len, const uint8_t *proof,
                             size_t proof_len, uint8_t found[33]);

/* A table beside the store: a caller that reads much from one store lends one to the calls below, and they find records by halving instead of looking at
   every slot. It has as many entries as the store has slots: the slots that hold a record, by place and then version, then the number of slots in each entry
   left over. What a table holds can cost a read time and nothing else: a search that doesn't end on a matching slot looks at every slot, so on a sound store
   every read answers as without a table, whatever is in it (on a store that isn't sound it may find another of two records that share version and place).
   index_len is the number of entries; a table of another length is refused with 1.

   Writes the one right table of a sound store. Refused: 1, 2, 3. */
uint32_t grants_index(const uint8_t *store, size_t store_len, uint32_t *index, size_t index_len);

/* Whether a table is the right one of a sound store: 16 if not. Refused: 1, 2, 3, 16. */
uint32_t grants_index_check(const uint8_t *store, size_t store_len, const uint32_t *index, size_t index_len);

/* grants_format, grants_apply and grants_prune on a store and its table, which is left the right one of the store that is left. The store's bytes and the
   answer are those of the call without a table; a refused call writes neither.
   Refused: 1 | 1, 2, 3, 16, 4, 5, 18, 7 | 1, 2, 3, 16, 8. */
uint32_t grants_format_indexed(uint8_t *store, size_t store_len, uint32_t *index, size_t index_len);
uint32_t grants_apply_indexed(uint8_t *store, size_t store_len, uint32_t *index, size_t index_len, uint32_t number, const uint8_t *batch,
                              size_t batch_len, uint8_t answer[40]);
uint32_t grants_prune_indexed(uint8_t *store, size_t store_len, uint32_t *index, size_t index_len, uint32_t version, uint8_t freed[4]);

/* The reads by a table. They test the table's length, not what it holds. Refused: as without a table. */
uint64_t grants_root_indexed(const uint8_t *store, size_t store_len, const uint32_t *index, size_t index_len, uint32_t version, uint8_t root[32]);
uint64_t grants_get_indexed(const uint8_t *store, size_t store_len, const uint32_t *index, size_t index_len, uint32_t version,
                            const uint8_t *key, size_t key_len, uint8_t found[33]);
uint64_t grants_count_indexed(const uint8_t *store, size_t store_len, const uint32_t *index, size_t index_len, uint32_t version, uint8_t count[8]);
uint64_t grants_at_indexed(const uint8_t *store, size_t store_len, const uint32_t *index, size_t index_len, uint32_t version, uint64_t position,
                           uint8_t grant[64]);
uint64_t grants_prove_indexed(const uint8_t *store, size_t store_len, const uint32_t *index, size_t index_len, uint32_t version,
                              const uint8_t *key, size_t key_len, uint8_t *room, size_t room_len, uint8_t length[4]);
uint64_t grants_palette_indexed(const uint8_t *store, size_t store_len, const uint32_t *index, size_t index_len, uint32_t version,
                                const uint8_t *keys, size_t keys_len, uint8_t *room, size_t room_len, uint8_t length[4]);

/* Writes a proof as the message of ICS 23 that partners' verifiers read, a protobuf CommitmentProof (docs/PARTNERS.md), to the front of room; the rest stays.
   Keys and values are raw there, so the caller lends what was hashed: the raw key asked for, and raw key and value of each leaf that the proof shows. Leaf 1 is
   the leaf shown, or the left one of two; leaf 2 the right one of two. A leaf that isn't shown is lent with length 0 for key and value. Raw keys have 1 to 256
   bytes, raw values 1 to 4,096. Whether the proof holds is not looked at. A message has at most 14,868 bytes for a grant that stands, 29,999 for one that doesn't.
   length: of the message. Refused: 10 (the proof), 15 (a raw part, a leaf too many or too few), 9. */
uint32_t grants_ics23_write(const uint8_t *proof, size_t proof_len, const uint8_t *asked, size_t asked_len, const uint8_t *key1, size_t key1_len,
                            const uint8_t *value1, size_t value1_len, const uint8_t *key2, size_t key2_len, const uint8_t *value2, size_t value2_len,
                            uint8_t *room, size_t room_len, uint8_t length[4]);

/* Reads such a message back into the proof that it was written from, to the front of room, which needs 17,080 bytes at most; the rest stays. It takes the
   one encoding that grants_ics23_write writes and no other. The proof is for grants_verify to judge, with the SHA-256 of the raw key asked for as key.
   answer: the proof's length (4 bytes), then where in the message the raw parts stand, offset (4) and length (4) each, both 0 where there is none: the key asked
   for, key and value of leaf 1, key and value of leaf 2. Refused: 10, 9. */
uint32_t grants_ics23_read(const uint8_t *message, size_t message_len, uint8_t *room, size_t room_len, uint8_t answer[44]);

/* SHA-256 of any bytes. Never refused. */
uint32_t grants_sha256(const uint8_t *bytes, size_t len, uint8_t digest[32]);

#ifdef __cplusplus
}
#endif

#endif
