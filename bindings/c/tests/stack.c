/* `stack PROFILE FILE`: makes each call on a thread whose stack has ILLCANON_STACK octets, those of the thread among them, and before it a page
 * that can't be touched: on each message of a file, on each of them cut off and with one octet more, and on one of 25 levels. Prints how many
 * octets each call took. The calls are those in a profile or, where PROFILE is `-`, those that are given none. */
#include "support.h"

#include <pthread.h>

#define MESSAGES 64
#define ROOM 65536

/* What the calls are made on, and what they write. */
static struct octets inputs[3 * MESSAGES + 1];
static size_t inputs_size, size, taken;
static uint8_t buffer[ROOM];
static uint32_t answer;
static struct illcanon_refusal refusal;

static void make_normalise(struct octets it) {
    normalise(it.at, it.count, buffer, ROOM, &size, &refusal);
}

static void make_show(struct octets it) {
    show(it.at, it.count, 1, buffer, ROOM, &size, &refusal);
}

static void make_json(struct octets it) {
    json(it.at, it.count, 1, 0, buffer, ROOM, &size, &refusal);
}

/* Builds the line of the message, if it is one; else the octets are refused as a line. And lines of 128 levels, as deep as they may be, are
 * refused for what they hold. */
static void make_build(struct octets it) {
    static uint8_t lists[2 * 128], objects[6 * 128 + 1];
    memset(lists, '[', 128);
    memset(lists + 128, ']', 128);
    memset(objects, '0', sizeof objects);
    for (size_t i = 0; i < 128; i++) {
        memcpy(objects + 5 * i, "{\"a\":", 5);
        objects[5 * 128 + 1 + i] = '}';
    }
    EXPECT(build(lists, sizeof lists, buffer, ROOM, &size, &answer) == ILLCANON_REFUSED && answer == ILLCANON_BUILD_WRONG_TYPE);
    EXPECT(build(objects, sizeof objects, buffer, ROOM, &size, &answer) == ILLCANON_REFUSED && answer == ILLCANON_BUILD_UNKNOWN_MEMBER);
    if (json(it.at, it.count, 1, 0, buffer, ROOM, &size, &refusal) == ILLCANON_DONE)
        it = fenced_copy(buffer, size);
    build(it.at, it.count, buffer, ROOM, &size, &answer);
}

static void make_build_cause_name(struct octets it) {
    illcanon_build_cause_name((uint32_t)it.count, buffer, ROOM, &size);
}

static void make_dump(struct octets it) {
    dump(it.at, it.count, 1, buffer, ROOM, &size, &refusal);
}

static void make_digest(struct octets it) {
    digest(it.at, it.count, buffer, ROOM, &size, &refusal);
}

static void make_check(struct octets it) {
    check(it.at, it.count, &answer, &refusal);
}

static void make_same(struct octets it) {
    same(inputs[0].at, inputs[0].count, it.at, it.count, &answer, &refusal);
}

static void make_next(struct octets it) {
    next(it.at, it.count, &size, &refusal);
}

static void make_normalise_next(struct octets it) {
    normalise_next(it.at, it.count, &taken, buffer, ROOM, &size, &refusal);
}

static void make_frame(struct octets it) {
    illcanon_frame(it.at, it.count, &size);
}

static void make_cause_name(struct octets it) {
    illcanon_cause_name((uint32_t)it.count, buffer, ROOM, &size);
}

static void make_cause_clause(struct octets it) {
    illcanon_cause_clause((uint32_t)it.count, buffer, ROOM, &size);
}

static void make_version(struct octets it) {
    (void)it;
    illcanon_version(buffer, ROOM, &size);
}

static const struct made {
    const char *name;
    void (*call)(struct octets);
} calls[] = {{"nothing", NULL},
             {"normalise", make_normalise},
             {"show", make_show},
             {"json", make_json},
             {"build", make_build},
             {"dump", make_dump},
             {"digest", make_digest},
             {"check", make_check},
             {"same", make_same},
             {"next", make_next},
             {"normalise_next", make_normalise_next},
             {"frame", make_frame},
             {"cause_name", make_cause_name},
             {"cause_clause", make_cause_clause},
             {"build_cause_name", make_build_cause_name},
             {"version", make_version}};

static void *run(void *made) {
    const struct made *it = made;
    for (size_t i = 0; it->call != NULL && i < inputs_size; i++)
        it->call(inputs[i]);
    return NULL;
}

/* How many octets of a stack of ILLCANON_STACK octets a thread takes that makes a call on each input. */
static size_t stack_of(const struct made *made) {
    size_t page = (size_t)sysconf(_SC_PAGESIZE), untaken = 0;
    pthread_attr_t attributes;
    pthread_t thread;
    uint8_t *guard = mmap(NULL, page + ILLCANON_STACK, PROT_READ | PROT_WRITE, MAP_PRIVATE | MAP_ANONYMOUS, -1, 0), *stack = guard + page;
    if (guard == MAP_FAILED || mprotect(guard, page, PROT_NONE) != 0)
        abort();
    memset(stack, UNTOUCHED, ILLCANON_STACK);
    if (pthread_attr_init(&attributes) != 0 || pthread_attr_setstack(&attributes, stack, ILLCANON_STACK) != 0 ||
        pthread_create(&thread, &attributes, run, (void *)made) != 0 || pthread_join(thread, NULL) != 0)
        abort();
    while (untaken < ILLCANON_STACK && stack[untaken] == UNTOUCHED)
        untaken++;
    munmap(guard, page + ILLCANON_STACK);
    return ILLCANON_STACK - untaken;
}

/* An EXPIRED whose transaction-qualifier is in 20 segments, each in the one before it. */
static struct octets deep(void) {
    static const uint8_t head[] = "\x74\x80\x30\x80\x80\x01\x02\xa1\x80\xa1\x03\x1b\x01\x47\xa2\x80";
    static const uint8_t tail[] = "\xa2\x0c\xa0\x0a\x80\x08" "20240229\0\0\0";
    size_t levels = 20, at = sizeof head - 1;
    struct octets octets = {fenced(at + 4 * levels + 3 + 4 + sizeof tail), at + 4 * levels + 3 + 4 + sizeof tail};
    memset(octets.at, 0, octets.count);
    memcpy(octets.at, head, at);
    for (size_t i = 0; i < levels; i++, at += 2)
        memcpy(octets.at + at, i == 0 ? "\x3b\x80" : "\x24\x80", 2);
    memcpy(octets.at + at, "\x04\x01\x51", 3);
    at += 3 + 2 * levels + 4;
    memcpy(octets.at + at, tail, sizeof tail);
    return octets;
}

/* Each message of a file, each cut off and with one octet more, and one of many levels. */
static void read_inputs(const char *name) {
    static struct octets messages[MESSAGES];
    size_t count = read_messages(name, messages, MESSAGES);
    for (size_t i = 0; i < count; i++) {
        struct octets more = {fenced(messages[i].count + 1), messages[i].count + 1};
        memcpy(more.at, messages[i].at, messages[i].count);
        more.at[messages[i].count] = 0;
        inputs[inputs_size++] = messages[i];
        inputs[inputs_size++] = fenced_copy(messages[i].at, messages[i].count / 2);
        inputs[inputs_size++] = more;
    }
    inputs[inputs_size++] = deep();
}

int main(int count, char **words) {
    size_t bare = 0;
    if (count != 3)
        return 2;
    set_profile(words[1]);
    read_inputs(words[2]);
    struct octets last = inputs[inputs_size - 1];
    EXPECT(check(last.at, last.count, &answer, &refusal) == ILLCANON_DONE && answer == 0);
    for (size_t i = 0; i < sizeof calls / sizeof *calls; i++) {
        size_t found = stack_of(&calls[i]);
        if (i == 0)
            bare = found;
        else
            printf("%s %lu%s", calls[i].name, (unsigned long)(found - bare), i + 1 == sizeof calls / sizeof *calls ? "" : ", ");
    }
    printf(" octets of stack, and a thread %lu\n", (unsigned long)bare);
    return failures != 0;
}
