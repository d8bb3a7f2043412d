/* What an editor would pick otherwise: the system's OpenSSL over the chains of hashes of the same proofs, which bench/opening wrote. It looks at
   no form and compares the roots alone, so it is the limit and no bar. Its own variables (OPENSSL_armcap, OPENSSL_ia32cap) say whether it may
   use the machine's SHA instructions. Arguments: the file, and a name for the line. */
#include <openssl/evp.h>
#include <stdint.h>
#include <stdio.h>
#include <stdlib.h>
#include <string.h>
#include <time.h>

enum { PROOFS = 10000, STEPS = 20, HEAD = 72, STEP = 33, EACH = 32 + HEAD + STEP * STEPS, TURNS = 15 };

static EVP_MD *sha;
static EVP_MD_CTX *context;

static void node(uint8_t kind, const uint8_t *left, const uint8_t *right, uint8_t *hash) {
    uint8_t message[65];
    message[0] = kind;
    memcpy(message + 1, left, 32);
    memcpy(message + 33, right, 32);
    if (EVP_DigestInit_ex2(context, sha, NULL) != 1 || EVP_DigestUpdate(context, message, sizeof message) != 1 ||
        EVP_DigestFinal_ex(context, hash, NULL) != 1)
        exit(2);
}

static int holds(const uint8_t *asked) {
    const uint8_t *proof = asked + 32;
    uint8_t hash[32];
    node(1, proof + 8, proof + 40, hash);
    for (const uint8_t *step = proof + HEAD; step < asked + EACH; step += STEP)
        if (step[0] == 0) node(0, hash, step + 1, hash);
        else node(0, step + 1, hash, hash);
    return memcmp(hash, asked, 32) == 0;
}

int main(int count, char **words) {
    static uint8_t asked[PROOFS][EACH];
    FILE *file = count == 3 ? fopen(words[1], "rb") : NULL;
    if (!file || fread(asked, EACH, PROOFS, file) != PROOFS) {
        fprintf(stderr, "usage: openssl FILE NAME, with the file that bench/opening wrote\n");
        return 2;
    }
    sha = EVP_MD_fetch(NULL, "SHA256", NULL);
    context = EVP_MD_CTX_new();
    double best = 1e9;
    for (int turn = 0; turn < TURNS; turn++) {
        struct timespec from, to;
        clock_gettime(CLOCK_PROCESS_CPUTIME_ID, &from);
        for (int i = 0; i < PROOFS; i++)
            if (!holds(asked[i])) {
                fprintf(stderr, "proof %d does not lead to its root\n", i);
                return 1;
            }
        clock_gettime(CLOCK_PROCESS_CPUTIME_ID, &to);
        double ms = (to.tv_sec - from.tv_sec) * 1e3 + (to.tv_nsec - from.tv_nsec) / 1e6;
        if (ms < best) best = ms;
    }
    printf("limit opening-10000x20-%s %.2fms\n", words[2], best);
    return 0;
}
