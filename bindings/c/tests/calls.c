/* Each call on the messages of a file, in a profile or, where PROFILE is `-`, by the calls that are given none.
 *
 *   calls PROFILE FILE FORMS    expects their normal forms one after another in FORMS
 *   calls PROFILE show FILE     writes their texts
 *   calls PROFILE json FILE     writes their lines of JSON
 *   calls PROFILE dump FILE     writes their elements
 *   calls PROFILE digest FILE   writes their digests, a line for each
 *   calls PROFILE rows FILE     makes each call on the octets of each row of FILE that is of the profile. A row has its name, its profile
 *                               (`two` or `module`), the octets in hexadecimal, and what comes of them, with a `|` between two. That is
 *                               `normal` and the normal form in hexadecimal, or the cause of the refusal, its part or `-`, and its offset.
 */
#include "support.h"

#define MESSAGES 64

typedef uint32_t writing(const uint8_t *, size_t, uint8_t *, size_t, size_t *, struct illcanon_refusal *);

static uint32_t show_first(const uint8_t *octets, size_t count, uint8_t *buffer, size_t room, size_t *size, struct illcanon_refusal *refusal) {
    return show(octets, count, 1, buffer, room, size, refusal);
}

static uint32_t json_first(const uint8_t *octets, size_t count, uint8_t *buffer, size_t room, size_t *size, struct illcanon_refusal *refusal) {
    return json(octets, count, 1, 0, buffer, room, size, refusal);
}

/* The cause that `build` reports is its own; the other calls' refusal stays untouched. */
static uint32_t build_first(const uint8_t *octets, size_t count, uint8_t *buffer, size_t room, size_t *size, struct illcanon_refusal *refusal) {
    uint32_t cause = 77;
    uint32_t status = build(octets, count, buffer, room, size, &cause);
    (void)refusal;
    EXPECT(cause == 77);
    return status;
}

static uint32_t build_defaults_first(const uint8_t *octets, size_t count, uint8_t *buffer, size_t room, size_t *size,
                                     struct illcanon_refusal *refusal) {
    uint32_t cause = 77;
    uint32_t status = build_with_defaults(octets, count, buffer, room, size, &cause);
    (void)refusal;
    EXPECT(cause == 77);
    return status;
}

static uint32_t dump_first(const uint8_t *octets, size_t count, uint8_t *buffer, size_t room, size_t *size, struct illcanon_refusal *refusal) {
    return dump(octets, count, 1, buffer, room, size, refusal);
}

/* How many octets the message has that the next call normalises. */
static size_t first_size;

static uint32_t normalise_first(const uint8_t *octets, size_t count, uint8_t *buffer, size_t room, size_t *size, struct illcanon_refusal *refusal) {
    size_t read = 77;
    uint32_t status = normalise_next(octets, count, &read, buffer, room, size, refusal);
    EXPECT(read == (status == ILLCANON_DONE || status == ILLCANON_NO_ROOM ? first_size : 77));
    return status;
}

/* A call that writes: into a buffer that is just large enough, too small by each number up to 40, and larger; returns what it wrote. */
static struct octets written(writing *call, struct octets message) {
    struct illcanon_refusal refusal = untouched();
    size_t size = 0, other;
    uint8_t *none = fenced(0);
    EXPECT(call(message.at, message.count, none, 0, &size, &refusal) == ILLCANON_NO_ROOM);
    EXPECT(is_untouched(&refusal));
    struct octets exact = {fenced(size), size};
    EXPECT(call(message.at, message.count, exact.at, size, &other, &refusal) == ILLCANON_DONE);
    EXPECT(other == size && is_untouched(&refusal));
    for (size_t less = 1; less <= 40 && less <= size; less++) {
        uint8_t *buffer = fenced(size - less);
        memset(buffer, UNTOUCHED, size - less);
        other = 0;
        EXPECT(call(message.at, message.count, buffer, size - less, &other, &refusal) == ILLCANON_NO_ROOM);
        EXPECT(other == size && is_untouched(&refusal) && all_are(buffer, size - less, UNTOUCHED));
        unfence(buffer, size - less);
    }
    uint8_t *large = fenced(size + 1000);
    memset(large, UNTOUCHED, size + 1000);
    EXPECT(call(message.at, message.count, large, size + 1000, &other, &refusal) == ILLCANON_DONE);
    EXPECT(other == size && is_untouched(&refusal) && memcmp(large, exact.at, size) == 0 && all_are(large + size, 1000, UNTOUCHED));
    unfence(large, size + 1000);
    unfence(none, 0);
    return exact;
}

/* The elements of octets that are refused are written, with the refusal at its place. */
static void refused_dump_is(struct octets octets, uint32_t at, uint32_t cause, const char *part) {
    static const char head[] = "message 1: refused\n";
    static uint8_t text[1 << 20], other[1 << 20];
    struct illcanon_refusal refusal = untouched(), none = untouched();
    size_t size = 77, needed = 77;
    EXPECT(dump_first(octets.at, octets.count, text, sizeof text, &size, &refusal) == ILLCANON_REFUSED);
    EXPECT(refuses(&refusal, at, cause, part) && size > sizeof head && memcmp(text, head, sizeof head - 1) == 0 && text[size - 1] == '\n');
    memset(other, UNTOUCHED, size);
    EXPECT(dump_first(octets.at, octets.count, other, size - 1, &needed, &none) == ILLCANON_NO_ROOM);
    EXPECT(needed == size && is_untouched(&none) && all_are(other, size, UNTOUCHED));
    EXPECT(dump_first(octets.at, octets.count, other, size, &needed, &none) == ILLCANON_REFUSED);
    EXPECT(needed == size && refuses(&none, at, cause, part) && memcmp(text, other, size) == 0);
}

/* The lines of an EXPIRED that ends after its version: those from the place on are not judged. */
static void refused_lines_are(struct octets missing) {
    static const char wanted[] =
        "message 1: refused\n"
        "      0  74 80  Expired  (indefinite)\n"
        "      2    30 80  SEQUENCE  (indefinite)\n"
        "      4      80 01  protocol-version-num = 2\n"
        "refused at 7: Missing Expired.transaction-id\n"
        "    the element ends before a mandatory part\n"
        "    clause X.690, 8.9.3 and 8.14, with the types of ISO 10161-1\n"
        "    path Expired\n"
        "    found the end of the element\n"
        "    due [1] transaction-id\n"
        "      7    00 00  end mark  (not judged)\n";
    struct illcanon_refusal refusal = untouched();
    uint8_t text[sizeof wanted];
    size_t size = 77;
    EXPECT(dump_first(missing.at, missing.count, text, sizeof text, &size, &refusal) == ILLCANON_REFUSED);
    EXPECT(size == sizeof wanted - 1 && memcmp(text, wanted, size) == 0);
}

/* Octets that each call refuses in one way, with nothing else changed. */
static void refused(struct octets octets, uint32_t at, uint32_t cause, const char *part, struct octets good) {
    static writing *const calls[] = {normalise, show_first, json_first, digest};
    uint8_t buffer[100];
    memset(buffer, UNTOUCHED, sizeof buffer);
    for (size_t i = 0; i < sizeof calls / sizeof *calls; i++) {
        struct illcanon_refusal refusal = untouched();
        size_t size = 77;
        EXPECT(calls[i](octets.at, octets.count, buffer, sizeof buffer, &size, &refusal) == ILLCANON_REFUSED);
        EXPECT(refuses(&refusal, at, cause, part) && size == 77 && all_are(buffer, sizeof buffer, UNTOUCHED));
    }
    refused_dump_is(octets, at, cause, part);
    struct illcanon_refusal refusal = untouched(), second = untouched();
    uint32_t answer = 77;
    EXPECT(check(octets.at, octets.count, &answer, &refusal) == ILLCANON_REFUSED);
    EXPECT(refuses(&refusal, at, cause, part) && answer == 77);
    EXPECT(same(octets.at, octets.count, octets.at, octets.count, &answer, &refusal) == ILLCANON_REFUSED);
    EXPECT(refuses(&refusal, at, cause, part) && answer == 77);
    EXPECT(same(good.at, good.count, octets.at, octets.count, &answer, &second) == ILLCANON_SECOND_REFUSED);
    EXPECT(refuses(&second, at, cause, part) && answer == 77);
}

/* What the call that frames an element returns for octets. */
static void frame_is(struct octets octets, uint32_t status, size_t wanted) {
    size_t size = 77;
    EXPECT(illcanon_frame(octets.at, octets.count, &size) == status && size == wanted);
}

/* What the next call returns for octets. */
static void next_is(struct octets octets, uint32_t status, size_t wanted) {
    struct illcanon_refusal refusal = untouched();
    size_t size = 77;
    EXPECT(next(octets.at, octets.count, &size, &refusal) == status);
    EXPECT(size == wanted && is_untouched(&refusal));
}

/* What the call that normalises the next message returns for octets that don't begin with a message, with nothing written. */
static struct illcanon_refusal next_is_not(struct octets octets, uint32_t status) {
    struct illcanon_refusal refusal = untouched();
    uint8_t buffer[100];
    size_t size = 77;
    memset(buffer, UNTOUCHED, sizeof buffer);
    EXPECT(normalise_first(octets.at, octets.count, buffer, sizeof buffer, &size, &refusal) == status);
    EXPECT(size == 77 && all_are(buffer, sizeof buffer, UNTOUCHED));
    return refusal;
}

/* The normal form of the message that the octets begin with. */
static void next_form_is(struct octets octets, size_t count, struct octets form) {
    first_size = count;
    struct octets found = written(normalise_first, octets);
    EXPECT(found.count == form.count && memcmp(found.at, form.at, form.count) == 0);
    unfence(found.at, found.count);
}

/* Every proper prefix is cut off, and an octet more is one too many. */
static void cut_and_trailed(struct octets message, struct octets form) {
    for (size_t count = 0; count < message.count; count++) {
        struct octets part = fenced_copy(message.at, count);
        next_is(part, ILLCANON_NEEDS_MORE, 77);
        frame_is(part, ILLCANON_NEEDS_MORE, 77);
        struct illcanon_refusal refusal = next_is_not(part, ILLCANON_NEEDS_MORE);
        EXPECT(is_untouched(&refusal));
        refused(part, (uint32_t)count, ILLCANON_TRUNCATED, "", message);
        unfence(part.at, count);
    }
    struct octets more = {fenced(message.count + 1), message.count + 1};
    memcpy(more.at, message.at, message.count);
    more.at[message.count] = 0;
    next_is(more, ILLCANON_DONE, message.count);
    frame_is(message, ILLCANON_DONE, message.count);
    frame_is(more, ILLCANON_DONE, message.count);
    next_form_is(message, message.count, form);
    next_form_is(more, message.count, form);
    refused(more, (uint32_t)message.count, ILLCANON_TRAILING_BYTES, "", message);
    unfence(more.at, more.count);
}

static void same_is(struct octets first, struct octets second, uint32_t wanted) {
    struct illcanon_refusal refusal = untouched();
    uint32_t answer = 77;
    EXPECT(same(first.at, first.count, second.at, second.count, &answer, &refusal) == ILLCANON_DONE);
    EXPECT(answer == wanted && is_untouched(&refusal));
}

static void normal_is(struct octets octets, uint32_t wanted) {
    struct illcanon_refusal refusal = untouched();
    uint32_t normal = 77;
    EXPECT(check(octets.at, octets.count, &normal, &refusal) == ILLCANON_DONE);
    EXPECT(normal == wanted && is_untouched(&refusal));
}

static int are_equal(struct octets a, struct octets b) {
    return a.count == b.count && memcmp(a.at, b.at, a.count) == 0;
}

/* Each call on a message of this normal form. */
static void message_is(struct octets message, struct octets wanted) {
    struct octets form = written(normalise, message);
    EXPECT(are_equal(form, wanted));
    next_is(message, ILLCANON_DONE, message.count);
    normal_is(form, 1);
    normal_is(message, (uint32_t)are_equal(form, message));
    same_is(message, form, 1);
    written(show_first, message);
    struct octets line = written(json_first, message), built = written(build_first, line);
    EXPECT(are_equal(built, wanted));
    struct octets spelled = written(build_defaults_first, line), again = written(normalise, spelled);
    EXPECT(are_equal(again, wanted));
    unfence(again.at, again.count);
    unfence(spelled.at, spelled.count);
    unfence(built.at, built.count);
    unfence(line.at, line.count);
    written(dump_first, message);
    struct octets one = written(digest, message), other = written(digest, form);
    EXPECT(one.count == ILLCANON_DIGEST_SIZE && are_equal(one, other));
    cut_and_trailed(message, form);
    unfence(form.at, form.count);
}

/* Each message of a file, whose normal forms are one after another in another file. */
static void file_is(const char *name, const char *forms_name) {
    struct octets messages[MESSAGES], forms[MESSAGES];
    size_t count = read_messages(name, messages, MESSAGES);
    EXPECT(read_messages(forms_name, forms, MESSAGES) == count);
    for (size_t i = 0; i < count; i++) {
        struct octets other = forms[(i + 1) % count];
        message_is(messages[i], forms[i]);
        same_is(messages[i], other, (uint32_t)are_equal(forms[i], other));
    }
    printf("%s: %lu messages\n", name, (unsigned long)count);
}

/* Two octets that no message has, a row that is left out, one that is missing, and elements whose end can't be known. */
static void refusals_are(struct octets good) {
    static const uint8_t wrong_tag[] = {0x74, 0x1f, 0x30, 0x1d, 0x80, 0x01, 0x02, 0xa2};
    static const uint8_t missing[] = {0x74, 0x80, 0x30, 0x80, 0x80, 0x01, 0x02, 0x00, 0x00};
    static const uint8_t left_out[] = {0x62, 0x80};
    static const uint8_t unframed[][2] = {{0x00, 0x00}, {0x74, 0xff}, {0x54, 0x80}};
    struct octets octets = fenced_copy(wrong_tag, sizeof wrong_tag);
    refused(octets, 7, ILLCANON_UNEXPECTED_TAG, "", good);
    octets = fenced_copy(missing, sizeof missing);
    refused(octets, 7, ILLCANON_MISSING, "Expired.transaction-id", good);
    refused_lines_are(octets);
    struct illcanon_refusal refusal = untouched();
    size_t size = 77;
    EXPECT(next(octets.at, octets.count, &size, &refusal) == ILLCANON_REFUSED);
    EXPECT(size == 77 && refuses(&refusal, 7, ILLCANON_MISSING, "Expired.transaction-id"));
    refusal = next_is_not(octets, ILLCANON_REFUSED);
    EXPECT(refuses(&refusal, 7, ILLCANON_MISSING, "Expired.transaction-id"));
    frame_is(octets, ILLCANON_NEEDS_MORE, 77);
    for (size_t i = 0; i < sizeof unframed / sizeof *unframed; i++)
        frame_is(fenced_copy(unframed[i], 2), ILLCANON_REFUSED, 77);
    octets = fenced_copy(left_out, sizeof left_out);
    if (profile == ILLCANON_PROFILE_MODULE)
        refused(octets, 2, ILLCANON_TRUNCATED, "", good);
    else
        refused(octets, 0, ILLCANON_LEFT_OUT, "ILL-APDU.Forward-Notification", good);
}

/* Nothing is written where the number names no profile. */
static void no_profile_is(uint32_t number, struct octets good) {
    uint8_t buffer[100];
    size_t size = 77, read = 77;
    uint32_t answer = 77;
    struct illcanon_refusal refusal = untouched();
    memset(buffer, UNTOUCHED, sizeof buffer);
    EXPECT(illcanon_normalise_as(number, good.at, good.count, buffer, sizeof buffer, &size, &refusal) == ILLCANON_UNKNOWN_PROFILE);
    EXPECT(illcanon_show_as(number, good.at, good.count, 1, buffer, sizeof buffer, &size, &refusal) == ILLCANON_UNKNOWN_PROFILE);
    EXPECT(illcanon_json_as(number, good.at, good.count, 1, 0, buffer, sizeof buffer, &size, &refusal) == ILLCANON_UNKNOWN_PROFILE);
    EXPECT(illcanon_build_as(number, good.at, good.count, buffer, sizeof buffer, &size, &answer) == ILLCANON_UNKNOWN_PROFILE);
    EXPECT(illcanon_build_with_defaults(number, good.at, good.count, buffer, sizeof buffer, &size, &answer) == ILLCANON_UNKNOWN_PROFILE);
    EXPECT(illcanon_dump_as(number, good.at, good.count, 1, buffer, sizeof buffer, &size, &refusal) == ILLCANON_UNKNOWN_PROFILE);
    EXPECT(illcanon_digest_as(number, good.at, good.count, buffer, sizeof buffer, &size, &refusal) == ILLCANON_UNKNOWN_PROFILE);
    EXPECT(illcanon_check_as(number, good.at, good.count, &answer, &refusal) == ILLCANON_UNKNOWN_PROFILE);
    EXPECT(illcanon_same_as(number, good.at, good.count, good.at, good.count, &answer, &refusal) == ILLCANON_UNKNOWN_PROFILE);
    EXPECT(illcanon_next_as(number, good.at, good.count, &size, &refusal) == ILLCANON_UNKNOWN_PROFILE);
    EXPECT(illcanon_normalise_next_as(number, good.at, good.count, &read, buffer, sizeof buffer, &size, &refusal) ==
           ILLCANON_UNKNOWN_PROFILE);
    EXPECT(size == 77 && read == 77 && answer == 77 && is_untouched(&refusal) && all_are(buffer, sizeof buffer, UNTOUCHED));
}

/* The octets of a buffer for a name, a clause or the version. */
enum { TEXT_ROOM = 128 };

/* A text that a call wrote into a buffer of 40 octets, and nothing after it. */
static int is_text(const uint8_t *buffer, size_t size, const char *text) {
    return size == strlen(text) && memcmp(buffer, text, size) == 0 && all_are(buffer + size, TEXT_ROOM - size, UNTOUCHED);
}

/* Octets that can't begin a message, but end before the first fault: a length of nine octets, and an element that passes the end of the one
 * that it is in, whose length isn't there. */
static void needs_more_is(void) {
    static const uint8_t unfinished[][3] = {{0x74, 0x89, 0x01}, {0x74, 0x02, 0x30}};
    for (size_t i = 0; i < sizeof unfinished / sizeof *unfinished; i++) {
        struct octets octets = fenced_copy(unfinished[i], sizeof unfinished[i]);
        next_is(octets, ILLCANON_NEEDS_MORE, 77);
        struct illcanon_refusal refusal = next_is_not(octets, ILLCANON_NEEDS_MORE);
        EXPECT(is_untouched(&refusal));
    }
}

/* A buffer of ILLCANON_LIMIT octets has room for the normal form of a message, which has as many as the greatest one has. */
static void greatest_form_is(struct octets message, struct octets form) {
    uint8_t *buffer = fenced(ILLCANON_LIMIT);
    size_t size = 77, read = 77;
    struct illcanon_refusal refusal = untouched();
    EXPECT(normalise(message.at, message.count, buffer, ILLCANON_LIMIT, &size, &refusal) == ILLCANON_DONE);
    EXPECT(size == 1048576 && memcmp(buffer, form.at, size) == 0 && is_untouched(&refusal));
    memset(buffer, UNTOUCHED, ILLCANON_LIMIT);
    EXPECT(normalise_next(message.at, message.count, &read, buffer, ILLCANON_LIMIT, &size, &refusal) == ILLCANON_DONE);
    EXPECT(read == message.count && size == 1048576 && memcmp(buffer, form.at, size) == 0 && is_untouched(&refusal));
    EXPECT(normalise(message.at, message.count, buffer, ILLCANON_LIMIT - 1, &size, &refusal) == ILLCANON_NO_ROOM && size == 1048576);
    unfence(buffer, ILLCANON_LIMIT);
}

/* The greatest message: an EXPIRED in normal form, of which nearly all octets are of its transaction-qualifier. And the same without the tag
 * of its SEQUENCE, which has five octets fewer, and the same normal form. */
static void greatest_is(void) {
    static const uint8_t head[] = {0x74, 0x83, 0x0f, 0xff, 0xfb, 0x30, 0x83, 0x0f, 0xff, 0xf6, 0x80, 0x01, 0x02, 0xa1, 0x83, 0x0f, 0xff, 0xe0,
                                   0xa1, 0x03, 0x1b, 0x01, 0x47, 0xa2, 0x83, 0x0f, 0xff, 0xd6, 0x1b, 0x83, 0x0f, 0xff, 0xd1};
    static const uint8_t bare_head[] = {0x74, 0x83, 0x0f, 0xff, 0xf6}, tail[] = "\xa2\x0c\xa0\x0a\x80\x08" "20240229";
    struct octets form = {fenced(1048576), 1048576}, bare = {fenced(1048571), 1048571};
    EXPECT(ILLCANON_LIMIT == 1048576);
    memset(form.at, 'Q', form.count);
    memcpy(form.at, head, sizeof head);
    memcpy(form.at + form.count - 14, tail, 14);
    memcpy(bare.at, bare_head, sizeof bare_head);
    memcpy(bare.at + 5, form.at + 10, form.count - 10);
    next_is(form, ILLCANON_DONE, 1048576);
    normal_is(form, 1);
    normal_is(bare, 0);
    greatest_form_is(form, form);
    greatest_form_is(bare, form);
    unfence(form.at, form.count);
    unfence(bare.at, bare.count);
}

/* The line of a message under the largest number and offset. */
static void line_is(struct octets good) {
    static const char head[] = "{\"number\":4294967295,\"offset\":18446744073709551615,\"octets\":33,\"apdu\":\"Expired\"";
    static const char tail[] =
        ",\"normal\":true,\"value\":{\"protocol-version-num\":2,\"transaction-id\":{\"transaction-group-qualifier\":{\"general\":\"G\"},"
        "\"transaction-qualifier\":{\"general\":\"Q\"}},\"service-date-time\":{\"date-time-of-this-service\":{\"date\":\"20240229\"}}}}\n";
    struct illcanon_refusal refusal = untouched();
    char wanted[400];
    uint8_t buffer[sizeof wanted];
    size_t count = (size_t)sprintf(wanted, "%s%s%s", head, profile == ILLCANON_PROFILE_MODULE ? ",\"profile\":\"module\"" : "", tail);
    size_t size = 77;
    EXPECT(json(good.at, good.count, UINT32_MAX, UINT64_MAX, buffer, sizeof buffer, &size, &refusal) == ILLCANON_DONE);
    EXPECT(size == count && memcmp(buffer, wanted, size) == 0 && is_untouched(&refusal));
}

#define HEAD "{\"apdu\":\"Expired\",\"value\":"
#define IDENTIFIER "\"transaction-id\":{\"transaction-group-qualifier\":{\"general\":\"G\"},\"transaction-qualifier\":{\"general\":\"Q\"}}"
#define DATED(text) "\"service-date-time\":{\"date-time-of-this-service\":{\"date\":\"" text "\"}}"
#define VERSION "\"protocol-version-num\":2"

/* A line is built to these octets. */
static void built_is(const char *line, struct octets wanted) {
    struct octets built = written(build_first, fenced_copy((const uint8_t *)line, strlen(line)));
    EXPECT(are_equal(built, wanted));
}

/* A line is refused for a cause at a place, where the buffer has room for the pointer, and leaves all but the size where it has not. */
static void unbuilt_is(struct octets line, uint32_t wanted, const char *pointer) {
    size_t needed = strlen(pointer), size = 77;
    uint32_t cause = 77;
    uint8_t buffer[200];
    memset(buffer, UNTOUCHED, sizeof buffer);
    for (size_t room = 0; room < needed; room++, size = 77) {
        EXPECT(build(line.at, line.count, buffer, room, &size, &cause) == ILLCANON_NO_ROOM);
        EXPECT(size == needed && cause == 77 && all_are(buffer, sizeof buffer, UNTOUCHED));
    }
    for (size_t room = needed; room <= sizeof buffer; room += sizeof buffer - needed, size = 77, cause = 77) {
        memset(buffer, UNTOUCHED, sizeof buffer);
        EXPECT(build(line.at, line.count, buffer, room, &size, &cause) == ILLCANON_REFUSED);
        EXPECT(size == needed && cause == wanted && memcmp(buffer, pointer, needed) == 0 && all_are(buffer + needed, sizeof buffer - needed, UNTOUCHED));
    }
}

/* Lines, and the cause and the place of each one's first fault. */
static const struct {
    const char *line;
    uint32_t cause;
    const char *pointer;
} UNBUILT[] = {
    {"", ILLCANON_BUILD_NOT_JSON, ""},
    {"{\"apdu\":\"Expired\",}", ILLCANON_BUILD_NOT_JSON, ""},
    {"\"\xff\"", ILLCANON_BUILD_NOT_JSON, ""},
    {"[]", ILLCANON_BUILD_WRONG_TYPE, ""},
    {"{}", ILLCANON_BUILD_MISSING_MEMBER, "/apdu"},
    {"{\"apdu\":1,\"value\":{}}", ILLCANON_BUILD_WRONG_TYPE, "/apdu"},
    {"{\"apdu\":\"expired\",\"value\":{}}", ILLCANON_BUILD_UNKNOWN_NAME, "/apdu"},
    {"{\"apdu\":\"Expired\"}", ILLCANON_BUILD_MISSING_MEMBER, "/value"},
    {HEAD "{},\"apdu\":\"Expired\"}", ILLCANON_BUILD_REPEATED_MEMBER, "/apdu"},
    {HEAD "{},\"a/b~c\":1}", ILLCANON_BUILD_UNKNOWN_MEMBER, "/a~1b~0c"},
    {HEAD "{},\"profile\":\"3\"}", ILLCANON_BUILD_UNKNOWN_NAME, "/profile"},
    {HEAD "[]}", ILLCANON_BUILD_WRONG_TYPE, "/value"},
    {HEAD "{}}", ILLCANON_BUILD_MISSING_MEMBER, "/value/protocol-version-num"},
    {HEAD "{\"protocol-version-num\":2.0}}", ILLCANON_BUILD_NOT_WHOLE, "/value/protocol-version-num"},
    {HEAD "{\"protocol-version-num\":9223372036854775808}}", ILLCANON_BUILD_NUMBER_TOO_LONG, "/value/protocol-version-num"},
    {HEAD "{" VERSION ",\"transaction-id\":{\"transaction-group-qualifier\":{}}}}", ILLCANON_BUILD_NOT_ONE_MEMBER,
     "/value/transaction-id/transaction-group-qualifier"},
    {HEAD "{" VERSION ",\"transaction-id\":{\"transaction-group-qualifier\":{\"general\":\"\\u0100\"}}}}", ILLCANON_BUILD_BAD_CHARACTER,
     "/value/transaction-id/transaction-group-qualifier/general"},
    {HEAD "{" VERSION "," IDENTIFIER "," DATED("20230229") "}}", ILLCANON_BUILD_BAD_DATE,
     "/value/service-date-time/date-time-of-this-service/date"},
};

/* Lines are built, in any order of their members and with white space, or refused. */
static void lines_are_built(struct octets good) {
    int is_module = profile == ILLCANON_PROFILE_MODULE;
    struct octets spaces = {fenced(ILLCANON_LINE_LIMIT + 1), ILLCANON_LINE_LIMIT};
    built_is(HEAD "{" VERSION "," IDENTIFIER "," DATED("20240229") "}}", good);
    built_is(" {\"value\" : {" DATED("20240229") ", " IDENTIFIER ",\t" VERSION "},\r\n\"offset\": null, \"apdu\":\"\\u0045xpired\"}\n", good);
    built_is(is_module ? HEAD "{" VERSION "," IDENTIFIER "," DATED("20240229") "},\"profile\":\"module\"}"
                       : HEAD "{" VERSION "," IDENTIFIER "," DATED("20240229") "},\"profile\":\"2\"}", good);
    for (size_t i = 0; i < sizeof UNBUILT / sizeof *UNBUILT; i++)
        unbuilt_is(fenced_copy((const uint8_t *)UNBUILT[i].line, strlen(UNBUILT[i].line)), UNBUILT[i].cause, UNBUILT[i].pointer);
    const char *other = is_module ? HEAD "{},\"profile\":\"2\"}" : HEAD "{},\"profile\":\"module\"}";
    unbuilt_is(fenced_copy((const uint8_t *)other, strlen(other)), ILLCANON_BUILD_OTHER_PROFILE, "/profile");
    static const char forward[] = "{\"apdu\":\"Forward-Notification\",\"value\":{}}";
    struct octets left_out = fenced_copy((const uint8_t *)forward, sizeof forward - 1);
    unbuilt_is(left_out, is_module ? ILLCANON_BUILD_MISSING_MEMBER : ILLCANON_BUILD_LEFT_OUT, is_module ? "/value/protocol-version-num" : "/apdu");
    memset(spaces.at, ' ', ILLCANON_LINE_LIMIT + 1);
    unbuilt_is(spaces, ILLCANON_BUILD_NOT_JSON, "");
    spaces.count++;
    unbuilt_is(spaces, ILLCANON_BUILD_LINE_TOO_LONG, "");
    unfence(spaces.at, spaces.count);
}

typedef uint32_t naming(uint32_t, uint8_t *, size_t, size_t *);

/* Each cause has its name or clause, and no other number has one. */
static void texts_are(naming *call, const char *const *names, uint32_t count) {
    const uint32_t none[] = {0, count, 0x102, 0x80000001, UINT32_MAX};
    uint8_t buffer[TEXT_ROOM];
    size_t size;
    for (uint32_t cause = 1; cause < count; cause++) {
        size_t wanted = strlen(names[cause]);
        memset(buffer, UNTOUCHED, sizeof buffer);
        size = 77;
        EXPECT(call(cause, buffer, wanted - 1, &size) == ILLCANON_NO_ROOM);
        EXPECT(size == wanted && all_are(buffer, sizeof buffer, UNTOUCHED));
        size = 77;
        EXPECT(call(cause, buffer, wanted, &size) == ILLCANON_DONE && is_text(buffer, size, names[cause]));
        EXPECT(call(cause, buffer, sizeof buffer, &size) == ILLCANON_DONE && is_text(buffer, size, names[cause]));
    }
    memset(buffer, UNTOUCHED, sizeof buffer);
    size = 77;
    for (size_t i = 0; i < sizeof none / sizeof *none; i++)
        EXPECT(call(none[i], buffer, sizeof buffer, &size) == ILLCANON_UNKNOWN_CAUSE);
    EXPECT(size == 77 && all_are(buffer, sizeof buffer, UNTOUCHED));
}

/* The version is that of the header. */
static void version_is(void) {
    size_t wanted = strlen(ILLCANON_VERSION), size = 77;
    uint8_t buffer[TEXT_ROOM];
    memset(buffer, UNTOUCHED, sizeof buffer);
    EXPECT(illcanon_version(buffer, wanted - 1, &size) == ILLCANON_NO_ROOM && size == wanted && all_are(buffer, sizeof buffer, UNTOUCHED));
    size = 77;
    EXPECT(illcanon_version(buffer, wanted, &size) == ILLCANON_DONE && is_text(buffer, size, ILLCANON_VERSION));
}

static struct octets from_hexadecimal(const char *text) {
    struct octets octets = {fenced(strlen(text) / 2), strlen(text) / 2};
    for (size_t i = 0; i < octets.count; i++) {
        char digits[3] = {text[2 * i], text[2 * i + 1], 0};
        octets.at[i] = (uint8_t)strtoul(digits, NULL, 16);
    }
    return octets;
}

/* Each call refuses octets as an outcome says: the cause, the part or `-`, and the offset. */
static void outcome_is(struct octets octets, const char *outcome, struct octets good) {
    char name[32], part[64];
    unsigned at;
    uint32_t cause = 1;
    if (sscanf(outcome, "%31s %63s %u", name, part, &at) != 3)
        exit(2);
    while (cause < CAUSES_SIZE && strcmp(CAUSES[cause], name) != 0)
        cause++;
    if (strcmp(part, "-") == 0)
        part[0] = 0;
    refused(octets, at, cause, part, good);
    uint32_t wanted = cause == ILLCANON_TRUNCATED ? ILLCANON_NEEDS_MORE : ILLCANON_REFUSED;
    struct illcanon_refusal found = next_is_not(octets, wanted), refusal = untouched();
    size_t size = 77;
    EXPECT(next(octets.at, octets.count, &size, &refusal) == wanted && size == 77);
    EXPECT(wanted == ILLCANON_NEEDS_MORE ? is_untouched(&found) && is_untouched(&refusal)
                                         : refuses(&found, at, cause, part) && refuses(&refusal, at, cause, part));
}

/* Each row of the profile. */
static void rows_are(const char *name, struct octets good) {
    static char line[8192];
    FILE *file = fopen(name, "r");
    unsigned long count = 0;
    if (file == NULL)
        exit(2);
    while (fgets(line, sizeof line, file) != NULL) {
        const char *slug = strtok(line, "|"), *in = strtok(NULL, "|"), *octets = strtok(NULL, "|"), *outcome = strtok(NULL, "\n");
        int before = failures;
        if (slug == NULL || in == NULL || octets == NULL || outcome == NULL)
            exit(2);
        if ((strcmp(in, "module") == 0) != (profile == ILLCANON_PROFILE_MODULE))
            continue;
        if (strncmp(outcome, "normal ", 7) == 0)
            message_is(from_hexadecimal(octets), from_hexadecimal(outcome + 7));
        else
            outcome_is(from_hexadecimal(octets), outcome, good);
        if (failures != before)
            fprintf(stderr, "%s\n", slug);
        count++;
    }
    fclose(file);
    EXPECT(count > 0);
    printf("%s: %lu rows\n", name, count);
}

typedef uint32_t numbering(const uint8_t *, size_t, uint32_t, uint8_t *, size_t, size_t *, struct illcanon_refusal *);

/* Writes what a call that takes a number writes of each message of a file. */
static void print_texts(numbering *call, const char *name) {
    static uint8_t buffer[1 << 20];
    struct octets messages[MESSAGES];
    size_t count = read_messages(name, messages, MESSAGES), size;
    struct illcanon_refusal refusal;
    for (size_t i = 0; i < count; i++) {
        EXPECT(call(messages[i].at, messages[i].count, (uint32_t)i + 1, buffer, sizeof buffer, &size, &refusal) == ILLCANON_DONE);
        fwrite(buffer, 1, size, stdout);
    }
}

/* Writes the line of JSON of each message of a file. */
static void print_lines(const char *name) {
    static uint8_t buffer[1 << 20];
    struct octets messages[MESSAGES];
    size_t count = read_messages(name, messages, MESSAGES), size;
    struct illcanon_refusal refusal;
    uint64_t offset = 0;
    for (size_t i = 0; i < count; offset += messages[i].count, i++) {
        EXPECT(json(messages[i].at, messages[i].count, (uint32_t)i + 1, offset, buffer, sizeof buffer, &size, &refusal) == ILLCANON_DONE);
        fwrite(buffer, 1, size, stdout);
    }
}

/* Writes the digest of each message of a file, a line for each. */
static void print_digests(const char *name) {
    uint8_t buffer[ILLCANON_DIGEST_SIZE];
    struct octets messages[MESSAGES];
    size_t count = read_messages(name, messages, MESSAGES), size;
    struct illcanon_refusal refusal;
    for (size_t i = 0; i < count; i++) {
        EXPECT(digest(messages[i].at, messages[i].count, buffer, sizeof buffer, &size, &refusal) == ILLCANON_DONE);
        for (size_t k = 0; k < size; k++)
            printf("%02x%s", buffer[k], k + 1 == size ? "\n" : "");
    }
}

int main(int count, char **words) {
    static const uint8_t expired[] = "\x74\x1f\x30\x1d\x80\x01\x02\xa1\x0a\xa1\x03\x1b\x01\x47\xa2\x03\x1b\x01\x51\xa2\x0c\xa0\x0a\x80\x08"
                                     "20240229";
    struct octets good = fenced_copy(expired, sizeof expired - 1);
    if (count != 4)
        return 2;
    set_profile(words[1]);
    if (strcmp(words[2], "show") == 0)
        print_texts(show, words[3]);
    else if (strcmp(words[2], "json") == 0)
        print_lines(words[3]);
    else if (strcmp(words[2], "dump") == 0)
        print_texts(dump, words[3]);
    else if (strcmp(words[2], "digest") == 0)
        print_digests(words[3]);
    else if (strcmp(words[2], "rows") == 0)
        rows_are(words[3], good);
    else {
        static const uint32_t numbers[] = {0, 1, 4, 0x102, 0x80000003, 0xFFFFFFFF};
        file_is(words[2], words[3]);
        refusals_are(good);
        needs_more_is();
        greatest_is();
        line_is(good);
        lines_are_built(good);
        texts_are(illcanon_cause_name, CAUSES, CAUSES_SIZE);
        texts_are(illcanon_cause_clause, CLAUSES, CAUSES_SIZE);
        texts_are(illcanon_build_cause_name, BUILD_CAUSES, BUILD_CAUSES_SIZE);
        version_is();
        for (size_t i = 0; i < sizeof numbers / sizeof *numbers; i++)
            no_profile_is(numbers[i], good);
    }
    return failures != 0;
}
