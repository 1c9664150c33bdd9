/* What the calls for C do with any octets, as bindings/c/illcanon.h says it: a target for libFuzzer, and for driver.c.
 *
 * Each call is made in both profiles, on octets that begin after a page that can't be touched or end before one, and into a buffer of no
 * octets, of one too few, of as many as are needed, and of more, which ends before such a page. Then the k-th block of memory that a call
 * asks for is refused. All that is required is in the header; what one call says of octets is required of the others. Where that is not so,
 * the line is printed, and the process ends.
 */
#define _GNU_SOURCE
#include "../../bindings/c/illcanon.h"
#include "memory.h"

#include <stdio.h>
#include <stdlib.h>
#include <string.h>
#include <sys/mman.h>
#include <unistd.h>

#define UNTOUCHED 0xA7

/* The most octets that are read, and that a call writes. */
#define AREA ((size_t)4 << 20)

/* How many octets before a buffer have to stay as they are. */
#define BEFORE 64

/* The most blocks of a call of which each is refused once. */
#define MOST_REFUSED 24

#define REQUIRE(holds) \
    do { \
        if (!(holds)) { \
            fprintf(stderr, "fuzz.c:%d: profile %u: %s\n", __LINE__, profile, #holds); \
            abort(); \
        } \
    } while (0)

struct octets {
    const uint8_t *at;
    size_t count;
};

/* What a call on octets makes of them in a buffer. */
typedef uint32_t writing(struct octets, uint8_t *, size_t);

/* What the octets are: refused, or a message, which has a normal form. */
struct verdict {
    int is_message;
    struct octets form;
    struct illcanon_refusal refusal;
};

static uint32_t profile, number;

/* What the calls write, where they do: at the end or at the beginning of its area. */
static struct illcanon_refusal *refusal;
static size_t *size, *taken;
static uint32_t *answer;

static uint8_t *inputs, *inputs_written, *outputs, *results;

/* Memory. */

static long live, refused_at;
static int was_refused;

static int is_refused(void) {
    if (refused_at == 0 || --refused_at != 0)
        return 0;
    was_refused = 1;
    return 1;
}

void *fuzz_malloc(size_t count) {
    REQUIRE(count != 0);
    void *block = is_refused() ? NULL : malloc(count);
    live += block != NULL;
    return block;
}

void *fuzz_realloc(void *block, size_t count) {
    REQUIRE(block != NULL && count != 0);
    return is_refused() ? NULL : realloc(block, count);
}

void fuzz_free(void *block) {
    REQUIRE(block != NULL);
    live--;
    free(block);
}

/* An area of AREA octets between two pages that can't be touched. */
static uint8_t *area(int file, int protection) {
    size_t page = (size_t)sysconf(_SC_PAGESIZE);
    uint8_t *start = mmap(NULL, AREA + 2 * page, PROT_NONE, MAP_PRIVATE | MAP_ANONYMOUS, -1, 0);
    int flags = MAP_FIXED | (file < 0 ? MAP_PRIVATE | MAP_ANONYMOUS : MAP_SHARED);
    if (start == MAP_FAILED || mmap(start + page, AREA, protection, flags, file, 0) == MAP_FAILED)
        abort();
    return start + page;
}

int LLVMFuzzerInitialize(int *count, char ***words) {
    int file = memfd_create("inputs", 0);
    (void)count;
    (void)words;
    if (file < 0 || ftruncate(file, (off_t)AREA) != 0)
        abort();
    inputs = area(file, PROT_READ);
    inputs_written = area(file, PROT_READ | PROT_WRITE);
    outputs = area(-1, PROT_READ | PROT_WRITE);
    results = area(-1, PROT_READ | PROT_WRITE);
    return 0;
}

/* Puts what the calls write at the end of its area, or at the beginning. */
static void place_results(int is_at_end) {
    uint8_t *at = is_at_end ? results + AREA - sizeof *refusal - 2 * sizeof *size - sizeof(uint64_t) : results;
    size = (size_t *)at;
    taken = size + 1;
    answer = (uint32_t *)(taken + 1) + (is_at_end ? 1 : 0);
    refusal = (struct illcanon_refusal *)(answer + 1);
}

static int all_are(const void *octets, size_t count, uint8_t octet) {
    for (const uint8_t *at = octets, *end = at + count; at < end; at++)
        if (*at != octet)
            return 0;
    return 1;
}

static int is_kept(const void *value, size_t count) {
    return all_are(value, count, UNTOUCHED);
}

#define IS_KEPT(it) is_kept(it, sizeof *(it))

static uint8_t *buffer_of(size_t room) {
    uint8_t *buffer = outputs + AREA - room;
    memset(buffer - (buffer - outputs < BEFORE ? 0 : BEFORE), UNTOUCHED, room + (buffer - outputs < BEFORE ? 0 : BEFORE));
    return buffer;
}

/* Whether a buffer is as it was but for its first octets. */
static int is_kept_after(const uint8_t *buffer, size_t written, size_t room) {
    return is_kept(buffer + written, room - written) && (buffer - outputs < BEFORE || is_kept(buffer - BEFORE, BEFORE));
}

static uint32_t sum_of(struct octets octets) {
    uint32_t sum = 2166136261u;
    for (size_t i = 0; i < octets.count; i++)
        sum = (sum ^ octets.at[i]) * 16777619u;
    return sum;
}

static int are_equal(struct octets one, struct octets other) {
    return one.count == other.count && memcmp(one.at, other.at, one.count) == 0;
}

/* The calls, each of which is made by `begin`, itself and `end`. */

static void begin(void) {
    was_refused = 0;
    memset(size, UNTOUCHED, sizeof *size);
    memset(taken, UNTOUCHED, sizeof *taken);
    memset(answer, UNTOUCHED, sizeof *answer);
    memset(refusal, UNTOUCHED, sizeof *refusal);
}

/* What is so after each call: all memory is given back, and memory ran out exactly where some was refused, with nothing written. */
static uint32_t end(uint32_t status) {
    REQUIRE(live == 0);
    REQUIRE((status == ILLCANON_OUT_OF_MEMORY) == was_refused);
    if (status == ILLCANON_OUT_OF_MEMORY)
        REQUIRE(IS_KEPT(size) && IS_KEPT(taken) && IS_KEPT(answer) && IS_KEPT(refusal));
    return status;
}

static uint32_t normalise(struct octets octets, uint8_t *buffer, size_t room) {
    begin();
    return end(illcanon_normalise_as(profile, octets.at, octets.count, buffer, room, size, refusal));
}

static uint32_t show(struct octets octets, uint8_t *buffer, size_t room) {
    begin();
    return end(illcanon_show_as(profile, octets.at, octets.count, number, buffer, room, size, refusal));
}

static uint32_t json(struct octets octets, uint8_t *buffer, size_t room) {
    begin();
    return end(illcanon_json_as(profile, octets.at, octets.count, number, UINT64_MAX - number, buffer, room, size, refusal));
}

/* What is reported of a line that is refused is its cause, which is not in the refusal. */
static uint32_t build(struct octets octets, uint8_t *buffer, size_t room) {
    begin();
    return end(illcanon_build_as(profile, octets.at, octets.count, buffer, room, size, answer));
}

static uint32_t dump(struct octets octets, uint8_t *buffer, size_t room) {
    begin();
    return end(illcanon_dump_as(profile, octets.at, octets.count, number, buffer, room, size, refusal));
}

static uint32_t digest(struct octets octets, uint8_t *buffer, size_t room) {
    begin();
    return end(illcanon_digest_as(profile, octets.at, octets.count, buffer, room, size, refusal));
}

static uint32_t normalise_next(struct octets octets, uint8_t *buffer, size_t room) {
    begin();
    return end(illcanon_normalise_next_as(profile, octets.at, octets.count, taken, buffer, room, size, refusal));
}

static uint32_t check(struct octets octets) {
    begin();
    return end(illcanon_check_as(profile, octets.at, octets.count, answer, refusal));
}

static uint32_t same(struct octets first, struct octets second) {
    begin();
    return end(illcanon_same_as(profile, first.at, first.count, second.at, second.count, answer, refusal));
}

static uint32_t next(struct octets octets) {
    begin();
    return end(illcanon_next_as(profile, octets.at, octets.count, size, refusal));
}

static uint32_t frame(struct octets octets) {
    begin();
    return end(illcanon_frame(octets.at, octets.count, size));
}

/* A refusal as the header says: a cause of the profile, a place in the octets or at their end, and a part where the cause has one. */
static void is_refusal(struct octets octets) {
    size_t part = strnlen(refusal->part, sizeof refusal->part);
    REQUIRE(refusal->at <= octets.count);
    REQUIRE(refusal->cause >= ILLCANON_TRUNCATED);
    REQUIRE(refusal->cause <= (profile == ILLCANON_PROFILE_2 ? ILLCANON_NORMAL_TOO_LONG : ILLCANON_BAD_BITS));
    REQUIRE(refusal->cause != ILLCANON_LEFT_OUT || profile == ILLCANON_PROFILE_2);
    REQUIRE(refusal->cause != ILLCANON_TRUNCATED || refusal->at == octets.count);
    REQUIRE((part != 0) == (refusal->cause == ILLCANON_LEFT_OUT || refusal->cause == ILLCANON_MISSING));
    REQUIRE(part < sizeof refusal->part && all_are(refusal->part + part, sizeof refusal->part - part, 0));
}

/* Whether the refusal is this one. */
static int is_same_refusal(const struct illcanon_refusal *wanted) {
    return memcmp(refusal, wanted, sizeof *refusal) == 0;
}

/* What a call writes of octets, which ends as `wanted` where there is room for all of it. It is left in the area of outputs; NULL is returned
 * where that is too small. */
static struct octets written(writing *call, struct octets octets, uint32_t wanted) {
    uint8_t *buffer = buffer_of(0);
    REQUIRE(call(octets, buffer, 0) == ILLCANON_NO_ROOM);
    REQUIRE(IS_KEPT(refusal) && is_kept_after(buffer, 0, 0));
    size_t count = *size, read = *taken;
    if (count > AREA - 100)
        return (struct octets){NULL, count};
    buffer = buffer_of(count - 1);
    REQUIRE(call(octets, buffer, count - 1) == ILLCANON_NO_ROOM);
    REQUIRE(*size == count && *taken == read && IS_KEPT(refusal) && is_kept_after(buffer, 0, count - 1));
    size_t room = count + (number % 2 == 0 ? 0 : number % 100);
    buffer = buffer_of(room);
    REQUIRE(call(octets, buffer, room) == wanted);
    REQUIRE(*size == count && *taken == read && is_kept_after(buffer, count, room));
    REQUIRE(wanted == ILLCANON_REFUSED || IS_KEPT(refusal));
    return (struct octets){buffer, count};
}

/* A call refuses octets, and writes nothing but the refusal. */
static void is_refused_by(writing *call, struct octets octets, const struct illcanon_refusal *wanted) {
    size_t room = number % 300;
    uint8_t *buffer = buffer_of(room);
    REQUIRE(call(octets, buffer, room) == ILLCANON_REFUSED);
    REQUIRE(IS_KEPT(size) && IS_KEPT(taken) && is_kept_after(buffer, 0, room));
    is_refusal(octets);
    REQUIRE(wanted == NULL || is_same_refusal(wanted));
}

/* What the octets are, by the call that normalises them. A normal form is copied to a room of ILLCANON_LIMIT octets. */
static struct verdict judged(struct octets octets, uint8_t *room) {
    struct verdict verdict = {0};
    begin();
    uint32_t status = end(illcanon_normalise_as(profile, octets.at, octets.count, buffer_of(0), 0, size, refusal));
    verdict.is_message = status == ILLCANON_NO_ROOM;
    if (!verdict.is_message) {
        is_refused_by(normalise, octets, NULL);
        verdict.refusal = *refusal;
        return verdict;
    }
    struct octets form = written(normalise, octets, ILLCANON_DONE);
    REQUIRE(form.count > 0 && form.count <= ILLCANON_LIMIT && form.at != NULL);
    memcpy(room, form.at, form.count);
    verdict.form = (struct octets){room, form.count};
    return verdict;
}

/* Text is lines of visible letters of ASCII. */
static void is_text(struct octets text) {
    REQUIRE(text.count > 0);
    for (size_t i = 0; text.at != NULL && i < text.count; i++)
        REQUIRE(text.at[i] == '\n' || (text.at[i] >= ' ' && text.at[i] <= '~'));
    REQUIRE(text.at == NULL || text.at[text.count - 1] == '\n');
}

/* What is built of octets that are a line, which may be any: a normal form, or the place of its one fault, whose cause is reported. A normal
 * form is left in the area of outputs; NULL is returned of a line that is refused. */
static struct octets built_of(struct octets line) {
    uint32_t status = build(line, buffer_of(0), 0);
    size_t count = *size, room = count + number % 100;
    REQUIRE(status == ILLCANON_NO_ROOM ? count > 0 && IS_KEPT(answer) : status == ILLCANON_REFUSED && count == 0);
    REQUIRE(IS_KEPT(refusal) && IS_KEPT(taken));
    if (room > AREA - 100)
        return (struct octets){NULL, count};
    uint8_t *buffer = buffer_of(room);
    status = build(line, buffer, room);
    REQUIRE(*size == count && is_kept_after(buffer, count, room));
    if (status == ILLCANON_DONE) {
        REQUIRE(count <= ILLCANON_LIMIT && IS_KEPT(answer));
        return (struct octets){buffer, count};
    }
    REQUIRE(status == ILLCANON_REFUSED && (count == 0 || *buffer == '/'));
    REQUIRE(*answer >= ILLCANON_BUILD_NOT_JSON && *answer <= ILLCANON_BUILD_OTHER_PROFILE);
    return (struct octets){NULL, count};
}

/* The calls on octets that are a message, beside what the call that normalises says. */
static void message_is(struct octets octets, const struct verdict *verdict) {
    static uint8_t sum[ILLCANON_DIGEST_SIZE], line_room[AREA];
    REQUIRE(check(octets) == ILLCANON_DONE && *answer == (uint32_t)are_equal(octets, verdict->form) && IS_KEPT(refusal));
    REQUIRE(check(verdict->form) == ILLCANON_DONE && *answer == 1);
    REQUIRE(same(octets, verdict->form) == ILLCANON_DONE && *answer == 1 && IS_KEPT(refusal));
    struct octets found = written(digest, octets, ILLCANON_DONE);
    REQUIRE(found.count == sizeof sum);
    memcpy(sum, found.at, sizeof sum);
    found = written(digest, verdict->form, ILLCANON_DONE);
    REQUIRE(memcmp(found.at, sum, sizeof sum) == 0);
    is_text(written(dump, octets, ILLCANON_DONE));
    struct octets line = written(json, octets, ILLCANON_DONE);
    is_text(line);
    REQUIRE(line.at == NULL || memchr(line.at, '\n', line.count) == line.at + line.count - 1);
    if (line.at != NULL) {
        memcpy(line_room, line.at, line.count);
        struct octets built = built_of((struct octets){line_room, line.count});
        REQUIRE(built.at != NULL && are_equal(built, verdict->form));
    }
    struct octets text = written(show, octets, ILLCANON_DONE);
    is_text(text);
    uint32_t first = text.at != NULL ? sum_of(text) : 0;
    text = written(show, verdict->form, ILLCANON_DONE);
    REQUIRE(text.at == NULL || sum_of(text) == first);
}

/* The calls on octets that are no message. */
static void refused_is(struct octets octets, const struct verdict *verdict) {
    static writing *const calls[] = {normalise, show, json, digest};
    for (size_t i = 0; i < sizeof calls / sizeof *calls; i++)
        is_refused_by(calls[i], octets, &verdict->refusal);
    is_text(written(dump, octets, ILLCANON_REFUSED));
    REQUIRE(dump(octets, buffer_of(0), 0) == ILLCANON_NO_ROOM);
    REQUIRE(check(octets) == ILLCANON_REFUSED && IS_KEPT(answer) && is_same_refusal(&verdict->refusal));
    REQUIRE(same(octets, octets) == ILLCANON_REFUSED && IS_KEPT(answer) && is_same_refusal(&verdict->refusal));
}

/* The calls on the front of octets. */
static void front_is(struct octets octets, const struct verdict *verdict) {
    uint32_t cause = verdict->is_message ? 0 : verdict->refusal.cause, status = next(octets);
    size_t read = *size, room = number % 300;
    int is_front = verdict->is_message || cause == ILLCANON_TRAILING_BYTES;
    REQUIRE(status == (is_front ? ILLCANON_DONE : cause == ILLCANON_TRUNCATED ? ILLCANON_NEEDS_MORE : ILLCANON_REFUSED));
    REQUIRE(status == ILLCANON_REFUSED ? is_same_refusal(&verdict->refusal) : IS_KEPT(refusal));
    if (!is_front) {
        uint8_t *buffer = buffer_of(room);
        REQUIRE(IS_KEPT(size) && normalise_next(octets, buffer, room) == status);
        REQUIRE(IS_KEPT(size) && IS_KEPT(taken) && is_kept_after(buffer, 0, room));
        REQUIRE(status == ILLCANON_REFUSED ? is_same_refusal(&verdict->refusal) : IS_KEPT(refusal));
        return;
    }
    REQUIRE(read == (verdict->is_message ? octets.count : verdict->refusal.at) && read > 0);
    struct octets front = {octets.at, read}, form = written(normalise_next, octets, ILLCANON_DONE);
    uint32_t first = sum_of(form);
    REQUIRE(*taken == read && (!verdict->is_message || are_equal(form, verdict->form)));
    REQUIRE(sum_of(written(normalise, front, ILLCANON_DONE)) == first);
    REQUIRE(frame(octets) == ILLCANON_DONE && *size == read);
}

/* An element ends somewhere in the octets, or after them, or can't be known to end; and ends there whatever follows it. */
static void frame_is(struct octets octets) {
    uint32_t status = frame(octets);
    size_t count = *size;
    REQUIRE(status == ILLCANON_DONE || ((status == ILLCANON_NEEDS_MORE || status == ILLCANON_REFUSED) && IS_KEPT(size)));
    if (status != ILLCANON_DONE)
        return;
    REQUIRE(count > 0 && count <= octets.count);
    REQUIRE(frame((struct octets){octets.at, count}) == ILLCANON_DONE && *size == count);
    REQUIRE(frame((struct octets){octets.at, count - 1}) == ILLCANON_NEEDS_MORE);
}

/* Two messages are the same where their normal forms are equal: these octets, and the last message of the profile. */
static void compared(struct octets octets, const struct verdict *verdict) {
    static uint8_t rooms[2][ILLCANON_LIMIT];
    static struct octets kept[2];
    int at = profile == ILLCANON_PROFILE_2 ? 0 : 1;
    struct octets other = kept[at];
    if (other.at != NULL && verdict->is_message) {
        REQUIRE(same(octets, other) == ILLCANON_DONE && *answer == (uint32_t)are_equal(verdict->form, other));
    } else if (other.at != NULL) {
        REQUIRE(same(other, octets) == ILLCANON_SECOND_REFUSED && IS_KEPT(answer) && is_same_refusal(&verdict->refusal));
        REQUIRE(same(octets, other) == ILLCANON_REFUSED && IS_KEPT(answer) && is_same_refusal(&verdict->refusal));
    }
    if (verdict->is_message) {
        memcpy(rooms[at], verdict->form.at, verdict->form.count);
        kept[at] = (struct octets){rooms[at], verdict->form.count};
    }
}

/* Each block that a call asks for is refused once: memory runs out, and the buffer is as it was. */
static void is_out_of_memory(writing *call, struct octets octets) {
    size_t room = octets.count % 5000 + 16;
    for (long k = 1; k <= MOST_REFUSED; k++) {
        uint8_t *buffer = buffer_of(room);
        refused_at = k;
        uint32_t status = call(octets, buffer, room);
        refused_at = 0;
        if (!was_refused)
            return;
        REQUIRE(status == ILLCANON_OUT_OF_MEMORY && is_kept_after(buffer, 0, room));
    }
}

static uint32_t check_only(struct octets octets, uint8_t *buffer, size_t room) {
    (void)buffer;
    (void)room;
    return check(octets);
}

static uint32_t same_only(struct octets octets, uint8_t *buffer, size_t room) {
    (void)buffer;
    (void)room;
    return same(octets, octets);
}

static uint32_t next_only(struct octets octets, uint8_t *buffer, size_t room) {
    (void)buffer;
    (void)room;
    return next(octets);
}

/* All that is required of octets in a profile. */
static struct verdict judge(struct octets octets, uint8_t *room) {
    static writing *const calls[] = {normalise, show, json, build, dump, digest, normalise_next, check_only, same_only, next_only};
    struct verdict verdict = judged(octets, room);
    if (verdict.is_message)
        message_is(octets, &verdict);
    else
        refused_is(octets, &verdict);
    front_is(octets, &verdict);
    frame_is(octets);
    built_of(octets);
    compared(octets, &verdict);
    if (number % 16 == 0)
        for (size_t i = 0; i < sizeof calls / sizeof *calls; i++)
            is_out_of_memory(calls[i], octets);
    return verdict;
}

int LLVMFuzzerTestOneInput(const uint8_t *data, size_t count) {
    static uint8_t rooms[2][ILLCANON_LIMIT];
    if (count > AREA / 2)
        return -1;
    number = sum_of((struct octets){data, count});
    size_t at = number / 2 % 4 == 0 ? 0 : AREA - count;
    memcpy(inputs_written + at, data, count);
    struct octets octets = {inputs + at, count};
    place_results(number / 8 % 2 == 0);
    profile = ILLCANON_PROFILE_2;
    struct verdict two = judge(octets, rooms[0]);
    profile = ILLCANON_PROFILE_MODULE;
    struct verdict module = judge(octets, rooms[1]);
    REQUIRE(!two.is_message || !module.is_message || are_equal(two.form, module.form));
    return 0;
}
