/* `no_memory PROFILE FILE`: on the first message of a file, in a profile or, where PROFILE is `-`, by the calls that are given none, the
 * k-th call of malloc or realloc returns NULL, for each k until none is refused: each result before that is OUT_OF_MEMORY with nothing
 * written, and the last one DONE, or REFUSED where the message has another tag. What is taken is freed. Linked with --wrap of malloc,
 * realloc and free. */
#include "support.h"

void *__real_malloc(size_t size);
void *__real_realloc(void *block, size_t size);
void __real_free(void *block);

static long left = -1, refusals = 0, blocks = 0;

static int refused(void) {
    if (left < 0 || --left >= 0)
        return 0;
    left = 0;
    refusals++;
    return 1;
}

void *__wrap_malloc(size_t size) {
    void *block = refused() ? NULL : __real_malloc(size);
    blocks += block != NULL;
    return block;
}

void *__wrap_realloc(void *block, size_t size) {
    return refused() ? NULL : __real_realloc(block, size);
}

void __wrap_free(void *block) {
    blocks -= block != NULL;
    __real_free(block);
}

static struct octets message;
static uint8_t *buffer;
static size_t size, taken;
static uint32_t answer;
static struct illcanon_refusal refusal;

#define ROOM 65536

static uint32_t make_normalise(void) {
    return normalise(message.at, message.count, buffer, ROOM, &size, &refusal);
}

static uint32_t make_show(void) {
    return show(message.at, message.count, 1, buffer, ROOM, &size, &refusal);
}

static uint32_t make_json(void) {
    return json(message.at, message.count, 1, 0, buffer, ROOM, &size, &refusal);
}

/* The line of the message, and one that is refused at a place which has a name of its own. */
static struct octets line;
static const char refused_line[] = "{\"apdu\":\"Expired\",\"value\":{\"no-part-has-this-name\":1}}";

static uint32_t make_build(void) {
    return build(line.at, line.count, buffer, ROOM, &size, &answer);
}

static uint32_t make_build_with_defaults(void) {
    return build_with_defaults(line.at, line.count, buffer, ROOM, &size, &answer);
}

static uint32_t make_refused_build(void) {
    return build((const uint8_t *)refused_line, sizeof refused_line - 1, buffer, ROOM, &size, &answer);
}

static uint32_t make_dump(void) {
    return dump(message.at, message.count, 1, buffer, ROOM, &size, &refusal);
}

static uint32_t make_digest(void) {
    return digest(message.at, message.count, buffer, ROOM, &size, &refusal);
}

static uint32_t make_check(void) {
    return check(message.at, message.count, &answer, &refusal);
}

static uint32_t make_same(void) {
    return same(message.at, message.count, message.at, message.count, &answer, &refusal);
}

static uint32_t make_next(void) {
    return next(message.at, message.count, &size, &refusal);
}

static uint32_t make_normalise_next(void) {
    return normalise_next(message.at, message.count, &taken, buffer, ROOM, &size, &refusal);
}

static void refuse_each(const char *name, uint32_t (*call)(void), uint32_t wanted) {
    uint32_t status = ILLCANON_OUT_OF_MEMORY;
    long k = 0;
    for (; status == ILLCANON_OUT_OF_MEMORY && k < 100000; k++) {
        memset(buffer, UNTOUCHED, ROOM);
        refusal = untouched();
        size = taken = answer = 77;
        left = k;
        refusals = blocks = 0;
        status = call();
        left = -1;
        EXPECT(blocks == 0 && is_untouched(&refusal) == (status != ILLCANON_REFUSED || call == make_refused_build));
        if (refusals > 0)
            EXPECT(status == ILLCANON_OUT_OF_MEMORY && size == 77 && taken == 77 && answer == 77 && all_are(buffer, ROOM, UNTOUCHED));
    }
    EXPECT(status == wanted && refusals == 0 && k > 1);
    printf("%s: %ld refused\n", name, k - 1);
}

/* A call that takes no memory is done where there is none. */
static void takes_none(const char *name, uint32_t (*call)(void)) {
    refusals = left = 0;
    EXPECT(call() == ILLCANON_DONE && refusals == 0);
    left = -1;
    printf("%s: takes no memory\n", name);
}

static uint32_t make_frame(void) {
    return illcanon_frame(message.at, message.count, &size);
}

static uint32_t make_cause_name(void) {
    return illcanon_cause_name(ILLCANON_MISSING, buffer, ROOM, &size);
}

static uint32_t make_cause_clause(void) {
    return illcanon_cause_clause(ILLCANON_MISSING, buffer, ROOM, &size);
}

static uint32_t make_build_cause_name(void) {
    return illcanon_build_cause_name(ILLCANON_BUILD_NOT_JSON, buffer, ROOM, &size);
}

static uint32_t make_version(void) {
    return illcanon_version(buffer, ROOM, &size);
}

int main(int count, char **words) {
    struct octets messages[64];
    if (count != 3)
        return 2;
    set_profile(words[1]);
    read_messages(words[2], messages, 64);
    message = messages[0];
    buffer = fenced(ROOM);
    EXPECT(make_json() == ILLCANON_DONE);
    line = fenced_copy(buffer, size);
    refuse_each("normalise", make_normalise, ILLCANON_DONE);
    refuse_each("show", make_show, ILLCANON_DONE);
    refuse_each("json", make_json, ILLCANON_DONE);
    refuse_each("build", make_build, ILLCANON_DONE);
    refuse_each("build_with_defaults", make_build_with_defaults, ILLCANON_DONE);
    refuse_each("build of a refused line", make_refused_build, ILLCANON_REFUSED);
    EXPECT(answer == ILLCANON_BUILD_UNKNOWN_MEMBER);
    refuse_each("dump", make_dump, ILLCANON_DONE);
    refuse_each("digest", make_digest, ILLCANON_DONE);
    refuse_each("check", make_check, ILLCANON_DONE);
    refuse_each("same", make_same, ILLCANON_DONE);
    refuse_each("next", make_next, ILLCANON_DONE);
    refuse_each("normalise_next", make_normalise_next, ILLCANON_DONE);
    takes_none("frame", make_frame);
    takes_none("cause_name", make_cause_name);
    takes_none("cause_clause", make_cause_clause);
    takes_none("build_cause_name", make_build_cause_name);
    takes_none("version", make_version);
    message = fenced_copy(message.at, message.count);
    message.at[0] = 0x7e; /* [APPLICATION 30], which no APDU has */
    refuse_each("dump of a refused message", make_dump, ILLCANON_REFUSED);
    return failures != 0;
}
