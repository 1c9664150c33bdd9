/* `mutants PROGRAM COUNT PROFILE FILE..`: messages of the files, changed at random, are taken apart and normalised by the calls as by the
 * program's `canonicalise`, in two steps and in one: the same octets, the same refusal. Those that are accepted have the same text and the
 * same lines of JSON as by its `show`. The calls are those in the profile or, where PROFILE is `-`, those that are given none. */
#include "support.h"

#include <spawn.h>
#include <sys/wait.h>

#define MESSAGES 64
#define ROOM 65536

extern char **environ;

static uint64_t state = 0x9E3779B97F4A7C15u;

static uint32_t random_below(uint32_t bound) {
    state ^= state << 13;
    state ^= state >> 7;
    state ^= state << 17;
    return (uint32_t)((state >> 32) % bound);
}

struct output {
    uint8_t out[ROOM];
    char line[256];
    size_t out_size;
    int status;
};

static size_t drain(int from, uint8_t *to, size_t room) {
    size_t size = 0;
    ssize_t n;
    while (size < room && (n = read(from, to + size, room - size)) > 0)
        size += (size_t)n;
    close(from);
    return size;
}

/* Runs the program on the octets. These, and what it writes, are less than a pipe holds. */
static void run_program(const char *program, const char *const *words, const uint8_t *octets, size_t size, struct output *output) {
    int in[2], out[2], err[2], status;
    posix_spawn_file_actions_t actions;
    pid_t child;
    if (pipe(in) != 0 || pipe(out) != 0 || pipe(err) != 0 || write(in[1], octets, size) != (ssize_t)size)
        abort();
    posix_spawn_file_actions_init(&actions);
    posix_spawn_file_actions_adddup2(&actions, in[0], 0);
    posix_spawn_file_actions_adddup2(&actions, out[1], 1);
    posix_spawn_file_actions_adddup2(&actions, err[1], 2);
    for (int i = 0; i < 2; i++) {
        posix_spawn_file_actions_addclose(&actions, in[i]);
        posix_spawn_file_actions_addclose(&actions, out[i]);
        posix_spawn_file_actions_addclose(&actions, err[i]);
    }
    if (posix_spawn(&child, program, &actions, NULL, (char *const *)words, environ) != 0)
        abort();
    posix_spawn_file_actions_destroy(&actions);
    close(in[0]);
    close(in[1]);
    close(out[1]);
    close(err[1]);
    output->out_size = drain(out[0], output->out, ROOM);
    output->line[drain(err[0], (uint8_t *)output->line, sizeof output->line - 1)] = 0;
    waitpid(child, &status, 0);
    output->status = WIFEXITED(status) ? WEXITSTATUS(status) : -1;
}

enum calls { NEXT_AND_NORMALISE, NORMALISE_NEXT, NEXT_AND_SHOW, NEXT_AND_JSON };

/* The calls that make the output of the message at the front. */
static uint32_t call_on_front(enum calls calls, const uint8_t *octets, size_t count, uint32_t number, uint64_t offset, size_t *size, uint8_t *to,
                              size_t room, size_t *written, struct illcanon_refusal *refusal) {
    if (calls == NORMALISE_NEXT)
        return normalise_next(octets, count, size, to, room, written, refusal);
    uint32_t status = next(octets, count, size, refusal);
    if (status != ILLCANON_DONE)
        return status;
    status = calls == NEXT_AND_SHOW   ? show(octets, *size, number, to, room, written, refusal)
             : calls == NEXT_AND_JSON ? json(octets, *size, number, offset, to, room, written, refusal)
                                      : normalise(octets, *size, to, room, written, refusal);
    EXPECT(status == ILLCANON_DONE);
    return status;
}

/* The same by the calls: the normal forms, or the texts, of the messages up to the first that is refused. */
static void make_calls(enum calls calls, const uint8_t *octets, size_t count, struct output *output) {
    struct illcanon_refusal refusal;
    size_t size, written;
    uint32_t number = 1, status;
    output->out_size = 0;
    output->status = 0;
    output->line[0] = 0;
    for (size_t at = 0; at < count; at += size, number++) {
        status = call_on_front(calls, octets + at, count - at, number, at, &size, output->out + output->out_size, ROOM - output->out_size,
                               &written, &refusal);
        if (status == ILLCANON_NEEDS_MORE) {
            refusal.at = (uint32_t)(count - at);
            refusal.cause = ILLCANON_TRUNCATED;
            refusal.part[0] = 0;
        }
        if (status == ILLCANON_DONE) {
            output->out_size += written;
            continue;
        }
        output->status = status == ILLCANON_REFUSED || status == ILLCANON_NEEDS_MORE ? 1 : 3;
        if (output->status == 1)
            snprintf(output->line, sizeof output->line, "illcanon: refused at %u in message %u: %s%s%s\n", refusal.at, number,
                     CAUSES[refusal.cause], refusal.part[0] ? " " : "", refusal.part);
        return;
    }
}

static int are_equal(const struct output *a, const struct output *b) {
    return a->status == b->status && a->out_size == b->out_size && memcmp(a->out, b->out, a->out_size) == 0 && strcmp(a->line, b->line) == 0;
}

/* One to three changes: an octet, a bit, octets that are gone, doubled, or in place of others, a smaller or larger octet, an end. */
static size_t changed(uint8_t *octets, size_t count) {
    for (uint32_t changes = 1 + random_below(3); changes > 0 && count > 0; changes--) {
        size_t at = random_below((uint32_t)count), width = 1 + random_below(count - at < 8 ? (uint32_t)(count - at) : 8);
        switch (random_below(8)) {
        case 0:
            octets[at] = (uint8_t)random_below(256);
            break;
        case 1:
            octets[at] ^= (uint8_t)(1 << random_below(8));
            break;
        case 2:
            memmove(octets + at, octets + at + width, count - at - width);
            count -= width;
            break;
        case 3:
            memmove(octets + at + width, octets + at, count - at);
            count += width;
            break;
        case 4:
            memmove(octets + at, octets + random_below((uint32_t)(count - width + 1)), width);
            break;
        case 5:
            octets[at] = (uint8_t)(octets[at] + (random_below(2) ? 1 : 255));
            break;
        case 6:
            octets[at] = "\x00\x80\xff\x81\x1b\x30"[random_below(6)];
            break;
        default:
            if (random_below(8) == 0)
                count = at;
        }
    }
    return count;
}

/* Which cause the line of a refusal names, 0 if none. */
static size_t cause_of(const char *line) {
    const char *name = strstr(line, ": ") ? strrchr(line, ':') + 2 : "";
    for (size_t cause = 1; cause < CAUSES_SIZE; cause++)
        if (strncmp(name, CAUSES[cause], strlen(CAUSES[cause])) == 0 && strchr(" \n", name[strlen(CAUSES[cause])]) != NULL)
            return cause;
    return 0;
}

/* One of the messages, changed, and now and then another after it; returns its size. */
static size_t mutant(const struct octets *messages, size_t count, uint8_t *octets) {
    size_t k = random_below((uint32_t)count), size = messages[k].count;
    memcpy(octets, messages[k].at, size);
    size = changed(octets, size);
    if (random_below(8) == 0) {
        k = random_below((uint32_t)count);
        memcpy(octets + size, messages[k].at, messages[k].count);
        size += messages[k].count;
    }
    return size;
}

int main(int words, char **names) {
    static struct output wanted, found;
    static uint8_t octets[8192];
    static struct octets messages[MESSAGES];
    unsigned long seen[CAUSES_SIZE] = {0}, accepted = 0, total;
    size_t count = 0;
    if (words < 5)
        return 2;
    set_profile(names[3]);
    const char *option = profile == ILLCANON_PROFILE_MODULE ? "--profile=module" : NULL;
    const char *const canonicalise[] = {names[1], "canonicalise", "-", "-", option, NULL};
    const char *const show_words[] = {names[1], "show", "-", option, NULL};
    const char *const json_words[] = {names[1], "show", "--json", "-", option, NULL};
    total = strtoul(names[2], NULL, 10);
    for (int i = 4; i < words; i++)
        count += read_messages(names[i], messages + count, MESSAGES - count);
    for (unsigned long i = 0; i < total && failures < 20; i++) {
        size_t size = mutant(messages, count, octets);
        run_program(names[1], canonicalise, octets, size, &wanted);
        make_calls(NORMALISE_NEXT, octets, size, &found);
        EXPECT(are_equal(&found, &wanted));
        make_calls(NEXT_AND_NORMALISE, octets, size, &found);
        EXPECT(are_equal(&found, &wanted));
        seen[cause_of(found.line)]++;
        if (found.status == 0) {
            accepted++;
            make_calls(NEXT_AND_SHOW, octets, size, &found);
            run_program(names[1], show_words, octets, size, &wanted);
            EXPECT(are_equal(&found, &wanted));
            make_calls(NEXT_AND_JSON, octets, size, &found);
            run_program(names[1], json_words, octets, size, &wanted);
            EXPECT(are_equal(&found, &wanted));
        }
    }
    printf("%lu inputs, %lu accepted", total, accepted);
    for (size_t cause = 1; cause < CAUSES_SIZE; cause++)
        if (seen[cause])
            printf(", %s %lu", CAUSES[cause], seen[cause]);
    printf("\n");
    return failures != 0;
}
