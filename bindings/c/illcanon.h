/* illcanon: messages of the ISO interlibrary loan protocol (ILL APDUs of ISO 10161-1, in BER) in memory, and their one DER normal form.
 *
 * Octets are a pointer and their number. A call reads the octets that it is given, writes what it says below, and keeps nothing.
 *
 * What each call leaves is proved, for all octets and all sizes, where the caller keeps these rules:
 *
 *   - No pointer is NULL, even where its number is 0.
 *   - Each pointer is to that many octets of the caller's memory, or to one value of its type, aligned as C aligns it. No number is
 *     greater than PTRDIFF_MAX.
 *   - What a call writes (buffer, size, read, answer, refusal, cause) overlaps nothing else that it is given. Octets that are only read may
 *     overlap. What is written need not be set before.
 *   - No other thread writes what a call reads, or reads or writes what it writes, while it runs.
 *
 * Any number of threads may make calls at the same time. Calls take memory by malloc and realloc, and free all of it before they return.
 * They are not for signal handlers, nor for the child of a fork in a program with threads. A call takes at most ILLCANON_STACK octets of
 * stack, with what malloc and realloc take of it in glibc; this is tested, not proved.
 *
 * Each call returns an illcanon_status. Where it is not one of those that the call names, memory is as it was.
 */
#ifndef ILLCANON_H
#define ILLCANON_H

#include <stddef.h>
#include <stdint.h>

#define ILLCANON_VERSION "0.2.0"

/* The greatest number of octets of a message, and of its normal form. */
#define ILLCANON_LIMIT 1048576

/* The greatest number of octets of a line of JSON that a message is built from. */
#define ILLCANON_LINE_LIMIT 16777216

/* How many octets a digest has. */
#define ILLCANON_DIGEST_SIZE 32

/* The greatest number of octets of stack that a call takes. */
#define ILLCANON_STACK 65536

#ifdef __cplusplus
extern "C" {
#endif

/* How a call ended. The numbers don't change. */
enum illcanon_status {
    ILLCANON_DONE = 0,            /* what was asked for is there */
    ILLCANON_REFUSED = 1,         /* the octets are not a message, or the line says none, and the refusal or the cause says why */
    ILLCANON_SECOND_REFUSED = 2,  /* of two, the first is a message and the second is not, and the refusal says why */
    ILLCANON_NEEDS_MORE = 3,      /* the octets end before the first fault; more octets may complete a message or be refused */
    ILLCANON_NO_ROOM = 4,         /* the buffer is too short; the size says how many octets it needs */
    ILLCANON_OUT_OF_MEMORY = 5,   /* malloc or realloc returned NULL; nothing was written */
    ILLCANON_UNKNOWN_PROFILE = 6, /* the number is not an illcanon_profile; nothing was read or written */
    ILLCANON_UNKNOWN_CAUSE = 7    /* the number is not an illcanon_cause, or an illcanon_build_cause; nothing was written */
};

/* The profile of the messages that a call reads, where its name ends in _as. All other calls read profile 2. The numbers don't change. */
enum illcanon_profile {
    ILLCANON_PROFILE_2 = 2,     /* profile 2: parts of the module of ISO 10161-1 are refused as LEFT_OUT */
    ILLCANON_PROFILE_MODULE = 3 /* the module profile: each row of that module, and any octet in a GeneralString */
};

/* Why octets are not a message. The numbers don't change. docs/DEFINITIONS.md says when each comes, and which offset it has. */
enum illcanon_cause {
    ILLCANON_TRUNCATED = 1,         /* the octets end inside the message */
    ILLCANON_BAD_TAG = 2,           /* no identifier begins so (X.690, 8.1.2), or the tag number has more than four octets */
    ILLCANON_BAD_LENGTH = 3,        /* no length begins so (X.690, 8.1.3) */
    ILLCANON_TOO_LONG = 4,          /* the message would pass ILLCANON_LIMIT octets */
    ILLCANON_OVERRUN = 5,           /* the element would pass the end of one round it */
    ILLCANON_TOO_DEEP = 6,          /* 32 elements are open, or 20 levels of elements in what an open type holds */
    ILLCANON_UNEXPECTED_TAG = 7,    /* the tag is not due here */
    ILLCANON_LEFT_OUT = 8,          /* the part is one that this profile does not read */
    ILLCANON_WRONG_FORM = 9,        /* primitive where constructed is due, or the reverse */
    ILLCANON_MISSING = 10,          /* a mandatory part is missing */
    ILLCANON_BAD_END = 11,          /* 00 and then another octet than 00, in the indefinite form (X.690, 8.1.5) */
    ILLCANON_BAD_BOOLEAN = 12,      /* a BOOLEAN of another size than one octet */
    ILLCANON_BAD_INTEGER = 13,      /* an INTEGER of no octets, or whose first nine bits are equal (X.690, 8.3) */
    ILLCANON_INTEGER_TOO_LONG = 14, /* an INTEGER of more than eight octets */
    ILLCANON_BAD_TEXT = 15,         /* an octet outside the alphabet of the string */
    ILLCANON_BAD_DATE = 16,         /* not eight digits of a day that exists */
    ILLCANON_BAD_TIME = 17,         /* not six digits of a time of day */
    ILLCANON_TRAILING_BYTES = 18,   /* octets follow the message, which ends at the offset */
    ILLCANON_NORMAL_TOO_LONG = 19,  /* the normal form would pass ILLCANON_LIMIT octets */
    ILLCANON_BAD_NULL = 20,         /* a NULL with contents; this cause and the next two come in the module profile alone */
    ILLCANON_BAD_OID = 21,          /* an OBJECT IDENTIFIER that is empty or cut off, or has a padded number (X.690, 8.19) */
    ILLCANON_BAD_BITS = 22          /* a BIT STRING whose number of unused bits is absent or wrong, or whose segments don't join (X.690, 8.6) */
};

/* Why a line of JSON says no message. The numbers don't change. */
enum illcanon_build_cause {
    ILLCANON_BUILD_NOT_JSON = 1,         /* the line is no text of JSON (RFC 8259) in UTF-8, or nests deeper than 128 */
    ILLCANON_BUILD_LINE_TOO_LONG = 2,    /* the line has more than ILLCANON_LINE_LIMIT octets */
    ILLCANON_BUILD_WRONG_TYPE = 3,       /* another type of JSON is due */
    ILLCANON_BUILD_UNKNOWN_MEMBER = 4,   /* no part has the name of the member */
    ILLCANON_BUILD_REPEATED_MEMBER = 5,  /* a member of this name came before */
    ILLCANON_BUILD_LEFT_OUT = 6,         /* the part, or the APDU, is one that this profile does not have */
    ILLCANON_BUILD_MISSING_MEMBER = 7,   /* a member that has to be there is missing */
    ILLCANON_BUILD_NOT_ONE_MEMBER = 8,   /* a choice has no member, or two */
    ILLCANON_BUILD_UNKNOWN_NAME = 9,     /* no number of the part has the name; no APDU or no profile has it */
    ILLCANON_BUILD_OTHER_NAME = 10,      /* the number has another name */
    ILLCANON_BUILD_NOT_WHOLE = 11,       /* the number has a point or an exponent, or is -0 */
    ILLCANON_BUILD_NUMBER_TOO_LONG = 12, /* the number takes more than 64 bits; a number of bits is below 0 */
    ILLCANON_BUILD_BAD_CHARACTER = 13,   /* the string has a character past U+00FF */
    ILLCANON_BUILD_BAD_TEXT = 14,        /* the string has an octet outside its alphabet */
    ILLCANON_BUILD_BAD_DATE = 15,        /* not eight digits of a day that exists */
    ILLCANON_BUILD_BAD_TIME = 16,        /* not six digits of a time of day */
    ILLCANON_BUILD_BAD_HEXADECIMAL = 17, /* not pairs of digits 0 to 9 and a to f */
    ILLCANON_BUILD_BAD_BITS = 18,        /* not the bits that the octets have: more, an octet less, or one behind them is 1 */
    ILLCANON_BUILD_BAD_OID = 19,         /* the string is no OBJECT IDENTIFIER */
    ILLCANON_BUILD_BAD_FOREIGN = 20,     /* not the DER of one element of at most 20 levels, with tag numbers of at most four octets */
    ILLCANON_BUILD_NORMAL_TOO_LONG = 21, /* the normal form would pass ILLCANON_LIMIT octets */
    ILLCANON_BUILD_OTHER_PROFILE = 22    /* the line says that it is of the other profile */
};

/* A refusal. It is set where a call says so, and is as it was otherwise. */
struct illcanon_refusal {
    uint32_t at;    /* the offset, in octets from the first one */
    uint32_t cause; /* an illcanon_cause */
    char part[64];  /* of LEFT_OUT and MISSING the part, as "Expired.service-date-time"; "" otherwise. Zeros to its end */
};

/* Writes the normal form of the message that the octets are, all of them.
 *
 *   DONE           the normal form is the first *size octets of the buffer. No octet after it is touched.
 *   NO_ROOM        it has *size octets, more than buffer_size. The buffer is as it was.
 *   REFUSED        *refusal says why the octets are not exactly one message.
 *   OUT_OF_MEMORY
 *
 * A buffer of ILLCANON_LIMIT octets has room for any. Most normal forms are no longer than the message, but some are by a few octets.
 */
uint32_t illcanon_normalise(const uint8_t *octets, size_t octets_size, uint8_t *buffer, size_t buffer_size, size_t *size,
                            struct illcanon_refusal *refusal);

/* Says whether the message is in normal form.
 *
 *   DONE           *normal is 1 where they are, and 0 where the message is spelled in another way.
 *   REFUSED        *refusal says why the octets are not exactly one message.
 *   OUT_OF_MEMORY
 */
uint32_t illcanon_check(const uint8_t *octets, size_t octets_size, uint32_t *normal, struct illcanon_refusal *refusal);

/* Says whether two messages are the same: of one APDU, however each is spelled. They are exactly where their normal forms are equal.
 *
 *   DONE            *same is 1 where they are, and 0 where they are different.
 *   REFUSED         *refusal says why the first is not exactly one message.
 *   SECOND_REFUSED  the first is one, and *refusal says why the second is not.
 *   OUT_OF_MEMORY
 */
uint32_t illcanon_same(const uint8_t *first, size_t first_size, const uint8_t *second, size_t second_size, uint32_t *same,
                       struct illcanon_refusal *refusal);

/* Writes the message that the octets are as text in ASCII, under a number: "message", the number and the name of the APDU, and a line
 * for each leaf. Each line ends with a newline, and no zero follows.
 *
 *   DONE           the text is the first *size octets of the buffer. No octet after it is touched.
 *   NO_ROOM        it has *size octets, more than buffer_size. The buffer is as it was.
 *   REFUSED        *refusal says why the octets are not exactly one message.
 *   OUT_OF_MEMORY
 */
uint32_t illcanon_show(const uint8_t *octets, size_t octets_size, uint32_t number, uint8_t *buffer, size_t buffer_size, size_t *size,
                       struct illcanon_refusal *refusal);

/* Writes the message that the octets are as a line of JSON (RFC 8259), as `illcanon show --json` does and docs/show.schema.json describes:
 * an object of the number, the offset, how many octets the message has, the name of its APDU, whether it is in normal form, and its value.
 * The number and the offset are those that the call is given. The line is ASCII and ends with a newline, and no zero follows.
 *
 *   DONE           the line is the first *size octets of the buffer. No octet after it is touched.
 *   NO_ROOM        it has *size octets, more than buffer_size. The buffer is as it was.
 *   REFUSED        *refusal says why the octets are not exactly one message.
 *   OUT_OF_MEMORY
 */
uint32_t illcanon_json(const uint8_t *octets, size_t octets_size, uint32_t number, uint64_t offset, uint8_t *buffer, size_t buffer_size,
                       size_t *size, struct illcanon_refusal *refusal);

/* Writes the normal form of the message that a line of JSON says. So a message is built: the line is as illcanon_json writes it, an object
 * of the name of the APDU (apdu) and its value (value). Its members may come in any order, and with any white space. Other members that
 * illcanon_json writes may be left out, and hold anything, but for profile: that is "2" where it is there.
 *
 *   DONE           the normal form is the first *size octets of the buffer. No octet after it is touched.
 *   REFUSED        *cause is an illcanon_build_cause, which says why the line says no message. The first *size octets of the buffer are
 *                  the place, a JSON pointer (RFC 6901) in UTF-8 such as /value/service-date-time: none for the line itself. No octet
 *                  after it is touched, and no zero follows.
 *   NO_ROOM        the normal form, or the pointer of a line that is refused, has *size octets, more than buffer_size. The buffer is as
 *                  it was.
 *   OUT_OF_MEMORY
 *
 * A buffer of ILLCANON_LIMIT octets has room for any normal form.
 */
uint32_t illcanon_build(const uint8_t *line, size_t line_size, uint8_t *buffer, size_t buffer_size, size_t *size, uint32_t *cause);

/* Writes the digest of the message that the octets are: SHA-256 (FIPS 180-4) of its normal form. So it is one for all spellings.
 *
 *   DONE           the digest is the first *size octets of the buffer, which are ILLCANON_DIGEST_SIZE. No octet after it is touched.
 *   NO_ROOM        buffer_size is less than *size, which is ILLCANON_DIGEST_SIZE. The buffer is as it was.
 *   REFUSED        *refusal says why the octets are not exactly one message.
 *   OUT_OF_MEMORY
 */
uint32_t illcanon_digest(const uint8_t *octets, size_t octets_size, uint8_t *buffer, size_t buffer_size, size_t *size,
                         struct illcanon_refusal *refusal);

/* Finds where the message ends that the octets begin with, whatever follows it. So a stream of messages is taken apart. Each call reads
 * from the first octet on: after NEEDS_MORE, call again with all the octets, once more of them are there.
 *
 *   DONE           the message is the first *size octets.
 *   NEEDS_MORE     the octets, which may be none, end before the first fault, and no message ends among them. More octets may complete a
 *                  message or be refused: 74 89 01 gives NEEDS_MORE, and no message begins so.
 *   REFUSED        no message begins so, whatever follows the octets, and *refusal says why.
 *   OUT_OF_MEMORY
 */
uint32_t illcanon_next(const uint8_t *octets, size_t octets_size, size_t *size, struct illcanon_refusal *refusal);

/* Writes the normal form of the message that the octets begin with, whatever follows it. So a stream is normalised, and each message is
 * read once. As with illcanon_next, each call reads from the first octet on.
 *
 *   DONE           the message is the first *read octets, and its normal form is the first *size octets of the buffer. No octet after
 *                  it is touched.
 *   NO_ROOM        the message is the first *read octets. Its normal form has *size octets, more than buffer_size. The buffer is as it
 *                  was.
 *   NEEDS_MORE     the octets, which may be none, end before the first fault, and no message ends among them. More octets may complete a
 *                  message or be refused: 74 89 01 gives NEEDS_MORE, and no message begins so.
 *   REFUSED        no message begins so, whatever follows the octets, and *refusal says why.
 *   OUT_OF_MEMORY
 *
 * A buffer of ILLCANON_LIMIT octets has room for any normal form.
 */
uint32_t illcanon_normalise_next(const uint8_t *octets, size_t octets_size, size_t *read, uint8_t *buffer, size_t buffer_size, size_t *size,
                                 struct illcanon_refusal *refusal);

/* Writes the message that the octets are as it is spelled, under a number: a line that says what it is, and one for each element, as
 * `illcanon dump` does. Each line ends with a newline, and no zero follows. This call also writes where the octets are refused: the
 * elements before the place, then the refusal in words, and then the elements from there on by their identifiers and lengths alone, each
 * marked as not judged. At most ILLCANON_LIMIT octets are listed. The text is tested; all else is proved.
 *
 *   DONE           the text is the first *size octets of the buffer. No octet after it is touched.
 *   REFUSED        the same, and *refusal says why the octets are not exactly one message.
 *   NO_ROOM        the text has *size octets, more than buffer_size. The buffer is as it was.
 *   OUT_OF_MEMORY
 */
uint32_t illcanon_dump(const uint8_t *octets, size_t octets_size, uint32_t number, uint8_t *buffer, size_t buffer_size, size_t *size,
                       struct illcanon_refusal *refusal);

/* Finds where the element of BER ends that the octets begin with, by its identifiers and lengths alone, whatever they mean: so work goes
 * on after a message that is refused. It takes no memory.
 *
 *   DONE           the element is the first *size octets.
 *   NEEDS_MORE     the octets, which may be none, may be the beginning of an element, and none ends among them.
 *   REFUSED        where the element ends can't be known, whatever follows the octets.
 */
uint32_t illcanon_frame(const uint8_t *octets, size_t octets_size, size_t *size);

/* Writes the name of a cause, an illcanon_cause, in ASCII, such as "Truncated". No zero follows. It takes no memory.
 *
 *   DONE           the name is the first *size octets of the buffer. No octet after it is touched.
 *   NO_ROOM        it has *size octets, more than buffer_size. The buffer is as it was.
 *   UNKNOWN_CAUSE  the number is not an illcanon_cause. Memory is as it was.
 */
uint32_t illcanon_cause_name(uint32_t cause, uint8_t *buffer, size_t buffer_size, size_t *size);

/* Writes the clause that a cause, an illcanon_cause, enforces, in ASCII, as illcanon_cause_name does: of X.690, X.680 or ISO 10161-1, such as
 * "X.690, 8.2.1", or "limit of illcanon" where no standard is broken. It has at most 127 octets. */
uint32_t illcanon_cause_clause(uint32_t cause, uint8_t *buffer, size_t buffer_size, size_t *size);

/* Writes the name of a cause, an illcanon_build_cause, in ASCII, such as "NotJson", as illcanon_cause_name does. */
uint32_t illcanon_build_cause_name(uint32_t cause, uint8_t *buffer, size_t buffer_size, size_t *size);

/* Writes the version of the library, in ASCII: that of the header that belongs to it, ILLCANON_VERSION. No zero follows. It takes no
 * memory. A program that is linked with a shared library compares the two.
 *
 *   DONE           the version is the first *size octets of the buffer. No octet after it is touched.
 *   NO_ROOM        it has *size octets, more than buffer_size. The buffer is as it was.
 */
uint32_t illcanon_version(uint8_t *buffer, size_t buffer_size, size_t *size);

/* The same calls in a profile, but for illcanon_frame, illcanon_version and those of names. The first argument is its number, an
 * illcanon_profile. Each does with messages of that profile what the call without _as does with those of profile 2, and leaves the same in
 * memory. It has one status more:
 *
 *   UNKNOWN_PROFILE  the number is not an illcanon_profile. Memory is as it was.
 *
 * Octets may be a message in one profile and be refused in the other. Where they are a message in both, it is the same one, with the
 * same normal form. LEFT_OUT comes in profile 2 alone.
 */

/* Writes the normal form of the message in the profile that the octets are, as illcanon_normalise does. */
uint32_t illcanon_normalise_as(uint32_t profile, const uint8_t *octets, size_t octets_size, uint8_t *buffer, size_t buffer_size,
                               size_t *size, struct illcanon_refusal *refusal);

/* Says whether the message is in normal form in the profile, as illcanon_check does. */
uint32_t illcanon_check_as(uint32_t profile, const uint8_t *octets, size_t octets_size, uint32_t *normal,
                           struct illcanon_refusal *refusal);

/* Says whether two messages in the profile are the same, as illcanon_same does. In the module profile 0 may be said of messages that mean
 * the same: what an open type holds is the same only if it is equal element by element, and text with escape sequences only if its octets
 * are equal. 1 is always right. */
uint32_t illcanon_same_as(uint32_t profile, const uint8_t *first, size_t first_size, const uint8_t *second, size_t second_size,
                          uint32_t *same, struct illcanon_refusal *refusal);

/* Writes the message in the profile that the octets are as text, under a number, as illcanon_show does. */
uint32_t illcanon_show_as(uint32_t profile, const uint8_t *octets, size_t octets_size, uint32_t number, uint8_t *buffer,
                          size_t buffer_size, size_t *size, struct illcanon_refusal *refusal);

/* Writes the message in the profile that the octets are as a line of JSON, under a number and an offset, as illcanon_json does. A line of the
 * module profile says so. */
uint32_t illcanon_json_as(uint32_t profile, const uint8_t *octets, size_t octets_size, uint32_t number, uint64_t offset, uint8_t *buffer,
                          size_t buffer_size, size_t *size, struct illcanon_refusal *refusal);

/* Writes the normal form of the message in the profile that a line of JSON says, as illcanon_build does. A line of the module profile may
 * say so: its member profile is "module" where it is there. */
uint32_t illcanon_build_as(uint32_t profile, const uint8_t *line, size_t line_size, uint8_t *buffer, size_t buffer_size, size_t *size,
                           uint32_t *cause);

/* Writes the message in the profile that a line of JSON says, as illcanon_build_as does, with an element for each part that has its default.
 * Some systems refuse messages without their defaults. It is a message of the same APDU, but no normal form: illcanon_normalise_as makes the
 * normal form of it. Where the defaults have no room within ILLCANON_LIMIT octets, it is the normal form. */
uint32_t illcanon_build_with_defaults(uint32_t profile, const uint8_t *line, size_t line_size, uint8_t *buffer, size_t buffer_size,
                                      size_t *size, uint32_t *cause);

/* Writes the digest of the message in the profile that the octets are, as illcanon_digest does. */
uint32_t illcanon_digest_as(uint32_t profile, const uint8_t *octets, size_t octets_size, uint8_t *buffer, size_t buffer_size,
                            size_t *size, struct illcanon_refusal *refusal);

/* Writes the message in the profile that the octets are as it is spelled, under a number, as illcanon_dump does. */
uint32_t illcanon_dump_as(uint32_t profile, const uint8_t *octets, size_t octets_size, uint32_t number, uint8_t *buffer,
                          size_t buffer_size, size_t *size, struct illcanon_refusal *refusal);

/* Finds where the message in the profile ends that the octets begin with, whatever follows it, as illcanon_next does. */
uint32_t illcanon_next_as(uint32_t profile, const uint8_t *octets, size_t octets_size, size_t *size, struct illcanon_refusal *refusal);

/* Writes the normal form of the message in the profile that the octets begin with, whatever follows it, as illcanon_normalise_next
 * does. */
uint32_t illcanon_normalise_next_as(uint32_t profile, const uint8_t *octets, size_t octets_size, size_t *read, uint8_t *buffer,
                                    size_t buffer_size, size_t *size, struct illcanon_refusal *refusal);

#ifdef __cplusplus
}
#endif

#endif
