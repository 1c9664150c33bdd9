/* What the tests share: the calls in a profile, files, messages of a file, and memory that can't be passed. */
#ifndef SUPPORT_H
#define SUPPORT_H

#include "../illcanon.h"

#include <stdio.h>
#include <stdlib.h>
#include <string.h>
#include <sys/mman.h>
#include <unistd.h>

#define UNTOUCHED 0xA5

static int failures = 0;

/* Counts a failure where it doesn't hold. */
#define EXPECT(holds) \
    do { \
        if (!(holds)) { \
            failures++; \
            if (failures <= 20) \
                fprintf(stderr, "%s:%d: %s\n", __FILE__, __LINE__, #holds); \
        } \
    } while (0)

struct octets {
    uint8_t *at;
    size_t count;
};

/* The profile whose messages are read; 0 for the calls that are given none. */
static uint32_t profile = 0;

/* The profile of this name; `-` for the calls that are given none. */
static inline void set_profile(const char *name) {
    if (strcmp(name, "-") == 0)
        profile = 0;
    else if (strcmp(name, "2") == 0)
        profile = ILLCANON_PROFILE_2;
    else if (strcmp(name, "module") == 0)
        profile = ILLCANON_PROFILE_MODULE;
    else
        exit(2);
}

static inline uint32_t normalise(const uint8_t *octets, size_t count, uint8_t *buffer, size_t room, size_t *size,
                                 struct illcanon_refusal *refusal) {
    return profile != 0 ? illcanon_normalise_as(profile, octets, count, buffer, room, size, refusal)
                        : illcanon_normalise(octets, count, buffer, room, size, refusal);
}

static inline uint32_t check(const uint8_t *octets, size_t count, uint32_t *normal, struct illcanon_refusal *refusal) {
    return profile != 0 ? illcanon_check_as(profile, octets, count, normal, refusal) : illcanon_check(octets, count, normal, refusal);
}

static inline uint32_t same(const uint8_t *first, size_t first_count, const uint8_t *second, size_t second_count, uint32_t *answer,
                            struct illcanon_refusal *refusal) {
    return profile != 0 ? illcanon_same_as(profile, first, first_count, second, second_count, answer, refusal)
                        : illcanon_same(first, first_count, second, second_count, answer, refusal);
}

static inline uint32_t show(const uint8_t *octets, size_t count, uint32_t number, uint8_t *buffer, size_t room, size_t *size,
                            struct illcanon_refusal *refusal) {
    return profile != 0 ? illcanon_show_as(profile, octets, count, number, buffer, room, size, refusal)
                        : illcanon_show(octets, count, number, buffer, room, size, refusal);
}

static inline uint32_t dump(const uint8_t *octets, size_t count, uint32_t number, uint8_t *buffer, size_t room, size_t *size,
                            struct illcanon_refusal *refusal) {
    return profile != 0 ? illcanon_dump_as(profile, octets, count, number, buffer, room, size, refusal)
                        : illcanon_dump(octets, count, number, buffer, room, size, refusal);
}

static inline uint32_t json(const uint8_t *octets, size_t count, uint32_t number, uint64_t offset, uint8_t *buffer, size_t room, size_t *size,
                            struct illcanon_refusal *refusal) {
    return profile != 0 ? illcanon_json_as(profile, octets, count, number, offset, buffer, room, size, refusal)
                        : illcanon_json(octets, count, number, offset, buffer, room, size, refusal);
}

static inline uint32_t build(const uint8_t *line, size_t count, uint8_t *buffer, size_t room, size_t *size, uint32_t *cause) {
    return profile != 0 ? illcanon_build_as(profile, line, count, buffer, room, size, cause)
                        : illcanon_build(line, count, buffer, room, size, cause);
}

static inline uint32_t build_with_defaults(const uint8_t *line, size_t count, uint8_t *buffer, size_t room, size_t *size, uint32_t *cause) {
    return illcanon_build_with_defaults(profile != 0 ? profile : ILLCANON_PROFILE_2, line, count, buffer, room, size, cause);
}

static inline uint32_t digest(const uint8_t *octets, size_t count, uint8_t *buffer, size_t room, size_t *size,
                              struct illcanon_refusal *refusal) {
    return profile != 0 ? illcanon_digest_as(profile, octets, count, buffer, room, size, refusal)
                        : illcanon_digest(octets, count, buffer, room, size, refusal);
}

static inline uint32_t next(const uint8_t *octets, size_t count, size_t *size, struct illcanon_refusal *refusal) {
    return profile != 0 ? illcanon_next_as(profile, octets, count, size, refusal) : illcanon_next(octets, count, size, refusal);
}

static inline uint32_t normalise_next(const uint8_t *octets, size_t count, size_t *read, uint8_t *buffer, size_t room, size_t *size,
                                      struct illcanon_refusal *refusal) {
    return profile != 0 ? illcanon_normalise_next_as(profile, octets, count, read, buffer, room, size, refusal)
                        : illcanon_normalise_next(octets, count, read, buffer, room, size, refusal);
}

/* The causes, by their numbers. */
static const char *const CAUSES[] = {
    "",        "Truncated", "BadTag",     "BadLength",  "TooLong",        "Overrun", "TooDeep", "UnexpectedTag", "LeftOut",
    "WrongForm", "Missing", "BadEnd",     "BadBoolean", "BadInteger",     "IntegerTooLong", "BadText", "BadDate", "BadTime",
    "TrailingBytes", "NormalTooLong", "BadNull", "BadOid", "BadBits"};
#define CAUSES_SIZE (sizeof CAUSES / sizeof *CAUSES)

/* The clause of each cause, by the same numbers. */
static const char *const CLAUSES[] = {
    "",
    "X.690, 8.1.1",
    "X.690, 8.1.2, or limit of illcanon",
    "X.690, 8.1.3.2 and 8.1.3.5",
    "limit of illcanon",
    "X.690, 8.1.3.3",
    "limit of illcanon",
    "X.690, 8.9.2, 8.10.2, 8.13 and 8.14, with the types of ISO 10161-1",
    "limit of illcanon",
    "X.690, 8.2.1, 8.3.1, 8.8.1, 8.9.1, 8.10.1, 8.14 and 8.19.1",
    "X.690, 8.9.3 and 8.14, with the types of ISO 10161-1",
    "X.690, 8.1.5",
    "X.690, 8.2.1",
    "X.690, 8.3.1 and 8.3.2",
    "limit of illcanon",
    "X.690, 8.23, and X.680, 41",
    "ISO 10161-1: ISO-Date ::= VisibleString -- conforms to ISO 8601, length = 8, fixed, YYYYMMDD",
    "ISO 10161-1: ISO-Time ::= VisibleString -- conforms to ISO 8601, length = 6, fixed, HHMMSS",
    "limit of illcanon",
    "limit of illcanon",
    "X.690, 8.8.2",
    "X.690, 8.19.2",
    "X.690, 8.6.2",
};

/* The causes for which lines of JSON are refused, by their numbers. */
static const char *const BUILD_CAUSES[] = {
    "",          "NotJson",       "LineTooLong",  "WrongType", "UnknownMember", "RepeatedMember", "LeftOut",       "MissingMember",
    "NotOneMember", "UnknownName", "OtherName",   "NotWhole",  "NumberTooLong", "BadCharacter",   "BadText",       "BadDate",
    "BadTime",   "BadHexadecimal", "BadBits",     "BadOid",    "BadForeign",    "NormalTooLong",  "OtherProfile"};
#define BUILD_CAUSES_SIZE (sizeof BUILD_CAUSES / sizeof *BUILD_CAUSES)

/* Memory of this many octets, right after which the process may not go. Small blocks of it are never freed. */
static inline uint8_t *fenced(size_t count) {
    size_t page = (size_t)sysconf(_SC_PAGESIZE), pages = (count + page - 1) / page + 1;
    uint8_t *start = mmap(NULL, pages * page, PROT_READ | PROT_WRITE, MAP_PRIVATE | MAP_ANONYMOUS, -1, 0);
    if (start == MAP_FAILED || mprotect(start + (pages - 1) * page, page, PROT_NONE) != 0)
        abort();
    return start + (pages - 1) * page - count;
}

static inline void unfence(uint8_t *octets, size_t count) {
    size_t page = (size_t)sysconf(_SC_PAGESIZE), pages = (count + page - 1) / page + 1;
    munmap(octets + count - (pages - 1) * page, pages * page);
}

static inline struct octets fenced_copy(const uint8_t *from, size_t count) {
    struct octets copy = {fenced(count), count};
    memcpy(copy.at, from, count);
    return copy;
}

static inline struct octets read_file(const char *name) {
    struct octets all = {malloc(1 << 22), 0};
    FILE *file = fopen(name, "rb");
    if (file == NULL || all.at == NULL) {
        fprintf(stderr, "cannot read %s\n", name);
        exit(2);
    }
    all.count = fread(all.at, 1, 1 << 22, file);
    fclose(file);
    return all;
}

/* The messages of a file, each in fenced memory of its own; returns how many they are. */
static inline size_t read_messages(const char *name, struct octets *messages, size_t most) {
    struct octets all = read_file(name);
    size_t found = 0, at = 0, size;
    struct illcanon_refusal refusal;
    while (at < all.count && found < most) {
        if (next(all.at + at, all.count - at, &size, &refusal) != ILLCANON_DONE || size == 0 || size > all.count - at) {
            fprintf(stderr, "%s: no message at %lu\n", name, (unsigned long)at);
            exit(2);
        }
        messages[found++] = fenced_copy(all.at + at, size);
        at += size;
    }
    free(all.at);
    return found;
}

static inline int all_are(const uint8_t *octets, size_t count, uint8_t octet) {
    for (size_t i = 0; i < count; i++)
        if (octets[i] != octet)
            return 0;
    return 1;
}

/* A refusal that no call sets. */
static inline struct illcanon_refusal untouched(void) {
    struct illcanon_refusal refusal;
    memset(&refusal, UNTOUCHED, sizeof refusal);
    return refusal;
}

static inline int is_untouched(const struct illcanon_refusal *refusal) {
    return all_are((const uint8_t *)refusal, sizeof *refusal, UNTOUCHED);
}

static inline int refuses(const struct illcanon_refusal *refusal, uint32_t at, uint32_t cause, const char *part) {
    char text[sizeof refusal->part] = "";
    memcpy(text, part, strlen(part));
    return refusal->at == at && refusal->cause == cause && memcmp(refusal->part, text, sizeof text) == 0;
}

#endif
