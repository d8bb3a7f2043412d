/* SPDX-License-Identifier: Apache-2.0 */
/* What the publisher signs, read; and what an editor keeps so that a stale list is refused (docs/EDITOR.md). Functions of this header alone: nothing of the
 * library is called, nothing is allocated, and of the C library only memcmp. They are not proved; tests/stale holds them to the other bindings' on hostile statements. */
#ifndef GRANTS_STATEMENT_H
#define GRANTS_STATEMENT_H

#include <stddef.h>
#include <stdint.h>
#include <string.h>

/* Where a statement has no such date. */
#define GRANTS_NO_DATE INT64_MIN

/* Where a statement is that of a store and not of a shelf. */
#define GRANTS_NO_BITS (-1)

/* A root with its version and dates, as it is signed (docs/SIGNING.md). Dates are seconds since 1970. Of a shelf, bits is how many bits of a key name its part, 0 to
   12, for grants_shelf_verify. */
struct grants_statement {
    uint32_t version;
    uint8_t root[32];
    int bits;
    int64_t published, made, not_after;
};

/* Whether the bytes at *at begin with these; if so, *at goes past them. */
static inline int grants_statement_has(const char **at, const char *end, const char *words) {
    size_t length = strlen(words);
    if ((size_t)(end - *at) < length || memcmp(*at, words, length) != 0) return 0;
    *at += length;
    return 1;
}

/* A number of so many digits. */
static inline int grants_statement_digits(const char **at, const char *end, int digits, int64_t *number) {
    *number = 0;
    for (; digits > 0; digits--, (*at)++) {
        if (*at == end || **at < '0' || **at > '9') return 0;
        *number = *number * 10 + (**at - '0');
    }
    return 1;
}

/* A date such as 2026-05-10T10:00:00Z and the end of its line. */
static inline int grants_statement_date(const char **at, const char *end, int64_t *time) {
    static const int lengths[12] = {31, 28, 31, 30, 31, 30, 31, 31, 30, 31, 30, 31};
    int64_t year, month, day, hour, minute, second, days;
    if (!grants_statement_digits(at, end, 4, &year) || !grants_statement_has(at, end, "-")) return 0;
    if (!grants_statement_digits(at, end, 2, &month) || !grants_statement_has(at, end, "-")) return 0;
    if (!grants_statement_digits(at, end, 2, &day) || !grants_statement_has(at, end, "T")) return 0;
    if (!grants_statement_digits(at, end, 2, &hour) || !grants_statement_has(at, end, ":")) return 0;
    if (!grants_statement_digits(at, end, 2, &minute) || !grants_statement_has(at, end, ":")) return 0;
    if (!grants_statement_digits(at, end, 2, &second) || !grants_statement_has(at, end, "Z\n")) return 0;
    int leap = year % 4 == 0 && (year % 100 != 0 || year % 400 == 0);
    if (month < 1 || month > 12 || day < 1 || day > lengths[month - 1] + (month == 2 && leap)) return 0;
    if (hour > 23 || minute > 59 || second > 59) return 0;
    /* Days before the year, from the year 0, which is a leap year; then before the month; 1970 begins with day 719,528. */
    days = year == 0 ? 0 : 365 * year + (year - 1) / 4 - (year - 1) / 100 + (year - 1) / 400 + 1;
    for (int m = 1; m < month; m++) days += lengths[m - 1] + (m == 2 && leap);
    *time = ((days + day - 1 - 719528) * 24 + hour) * 3600 + minute * 60 + second;
    return 1;
}

/* The very lines that `grants root --out` writes, and no others: 1, and what they say; 0 for any other bytes, and *statement is then not to be looked at. Check the
   signature first, over the same bytes. */
static inline int grants_statement_read(const void *bytes, size_t length, struct grants_statement *statement) {
    const char *at = (const char *)bytes, *end = at + length;
    int64_t version = 0;
    if (!grants_statement_has(&at, end, "the root of a grant store\nversion ")) return 0;
    const char *first = at;
    while (at != end && *at >= '0' && *at <= '9' && version <= UINT32_MAX) version = version * 10 + (*at++ - '0');
    if (at == first || version > UINT32_MAX || (*first == '0' && at - first > 1)) return 0;
    statement->version = (uint32_t)version;
    if (!grants_statement_has(&at, end, "\nroot ") || end - at < 64) return 0;
    for (int i = 0; i < 64; i++, at++) {
        int digit = *at >= '0' && *at <= '9' ? *at - '0' : *at >= 'a' && *at <= 'f' ? *at - 'a' + 10 : -1;
        if (digit < 0) return 0;
        statement->root[i / 2] = (uint8_t)(i % 2 ? statement->root[i / 2] << 4 | digit : digit);
    }
    if (!grants_statement_has(&at, end, "\n")) return 0;
    statement->bits = GRANTS_NO_BITS;
    if (grants_statement_has(&at, end, "bits ")) {
        if (at == end || *at < '0' || *at > '9') return 0;
        statement->bits = *at++ - '0';
        if (statement->bits == 1 && at != end && *at >= '0' && *at <= '2') statement->bits = 10 + (*at++ - '0');
        if (!grants_statement_has(&at, end, "\n")) return 0;
    }
    statement->published = statement->not_after = GRANTS_NO_DATE;
    if (grants_statement_has(&at, end, "published ") && !grants_statement_date(&at, end, &statement->published)) return 0;
    if (!grants_statement_has(&at, end, "made ") || !grants_statement_date(&at, end, &statement->made)) return 0;
    if (grants_statement_has(&at, end, "not-after ") && !grants_statement_date(&at, end, &statement->not_after)) return 0;
    return at == end;
}

/* What an editor keeps of a list, from one start to the next: the highest version, its root, and the latest time that it knows to have come, in seconds since
   1970. At first all zero: version 0 holds nothing. */
struct grants_seen {
    uint32_t version;
    uint8_t root[32];
    int64_t time;
};

enum grants_verdict { GRANTS_FRESH, GRANTS_OLDER, GRANTS_OTHER_ROOT, GRANTS_UNDATED, GRANTS_PAST };

static inline const char *grants_verdict_words(enum grants_verdict verdict) {
    switch (verdict) {
    case GRANTS_FRESH: return "fresh";
    case GRANTS_OLDER: return "older than the version seen before";
    case GRANTS_OTHER_ROOT: return "another root for the version seen before";
    case GRANTS_UNDATED: return "without a date";
    default: return "past its date";
    }
}

/* What to make of a statement whose signature holds, at a time of the clock; what it says is kept where it is fresh. A clock that is behind what was seen, or behind
   the statement's own 'made', is not believed. Of one that is past, that its date has come is kept: no clock that is set back makes it fresh again. */
static inline enum grants_verdict grants_seen_take(struct grants_seen *seen, const struct grants_statement *statement, int64_t now) {
    int64_t time = now > seen->time ? now : seen->time;
    if (statement->made > time) time = statement->made;
    if (statement->version < seen->version) return GRANTS_OLDER;
    if (statement->version == seen->version && memcmp(statement->root, seen->root, 32) != 0) return GRANTS_OTHER_ROOT;
    if (statement->not_after == GRANTS_NO_DATE) return GRANTS_UNDATED;
    if (time > statement->not_after) {
        if (seen->time <= statement->not_after) seen->time = statement->not_after + 1;
        return GRANTS_PAST;
    }
    seen->version = statement->version;
    memcpy(seen->root, statement->root, 32);
    seen->time = time;
    return GRANTS_FRESH;
}

#endif
