/* Lines 'NOW HEX' from standard input, each a statement that comes at a time: what is read of it, and what an editor makes of it. An empty line is another
   editor. Each statement is read where it ends at the end of its memory, so that a sanitizer sees a byte too many. */
#include "grants_statement.h"

#include <inttypes.h>
#include <stdio.h>
#include <stdlib.h>

static void date(int64_t time) {
    if (time == GRANTS_NO_DATE) printf(" none");
    else printf(" %" PRId64, time);
}

int main(void) {
    static char line[65536];
    struct grants_seen seen = {0};
    while (fgets(line, sizeof line, stdin)) {
        struct grants_statement read;
        char *hex, *bytes;
        int64_t now = strtoll(line, &hex, 10);
        size_t length = 0;
        if (*line == '\n') {
            memset(&seen, 0, sizeof seen);
            printf("\n");
            continue;
        }
        for (hex++; hex[2 * length] != '\n'; length++) {}
        bytes = malloc(length + (length == 0));
        if (!bytes) return 1;
        for (size_t i = 0; i < length; i++) {
            char two[3] = {hex[2 * i], hex[2 * i + 1], 0};
            bytes[i] = (char)strtol(two, NULL, 16);
        }
        if (!grants_statement_read(bytes, length, &read)) {
            printf("-\n");
        } else {
            printf("%" PRIu32 " ", read.version);
            for (int i = 0; i < 32; i++) printf("%02x", read.root[i]);
            date(read.bits == GRANTS_NO_BITS ? GRANTS_NO_DATE : read.bits);
            date(read.published);
            date(read.made);
            date(read.not_after);
            const char *words = grants_verdict_words(grants_seen_take(&seen, &read, now));
            printf(": %s, %" PRIu32 " %" PRId64 "\n", words, seen.version, seen.time);
        }
        free(bytes);
    }
    return 0;
}
