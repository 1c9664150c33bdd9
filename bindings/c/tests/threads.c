/* `threads PROFILE FILE`: eight threads with 32 KB of stack make each call on the same messages at once, and each gets what one thread alone
 * gets. The calls are those in a profile or, where PROFILE is `-`, those that are given none. */
#include "support.h"

#include <pthread.h>

#define THREADS 8
#define STACK (32 * 1024)
#define MESSAGES 64
#define ROOM 65536
#define ROUNDS 200

struct results {
    uint8_t form[ROOM], next_form[ROOM], text[ROOM], line[ROOM], built[ROOM], digest[ILLCANON_DIGEST_SIZE];
    size_t form_size, next_form_size, text_size, line_size, built_size, digest_size, size, read;
    uint32_t normal, same, cause;
    uint32_t statuses[9];
};

static struct octets messages[MESSAGES];
static size_t count;
static struct results *wanted;

static void call_all(size_t i, struct results *results) {
    struct illcanon_refusal refusal;
    struct octets m = messages[i], other = messages[(i + 1) % count];
    memset(results, 0, sizeof *results);
    results->statuses[0] = normalise(m.at, m.count, results->form, ROOM, &results->form_size, &refusal);
    results->statuses[1] = show(m.at, m.count, 1, results->text, ROOM, &results->text_size, &refusal);
    results->statuses[2] = digest(m.at, m.count, results->digest, sizeof results->digest, &results->digest_size, &refusal);
    results->statuses[3] = check(m.at, m.count, &results->normal, &refusal);
    results->statuses[4] = same(m.at, m.count, other.at, other.count, &results->same, &refusal);
    results->statuses[5] = next(m.at, m.count, &results->size, &refusal);
    results->statuses[6] = normalise_next(m.at, m.count, &results->read, results->next_form, ROOM, &results->next_form_size, &refusal);
    results->statuses[7] = json(m.at, m.count, 1, 0, results->line, ROOM, &results->line_size, &refusal);
    results->statuses[8] = build(results->line, results->line_size, results->built, ROOM, &results->built_size, &results->cause);
}

static void *run(void *start) {
    struct results *results = malloc(sizeof *results);
    long differ = 0;
    for (size_t round = 0; round < ROUNDS; round++)
        for (size_t i = 0; i < count; i++) {
            size_t k = (i + (size_t)start) % count;
            call_all(k, results);
            differ += memcmp(results, &wanted[k], sizeof *results) != 0;
        }
    free(results);
    return (void *)differ;
}

int main(int words, char **names) {
    pthread_t threads[THREADS];
    pthread_attr_t attributes;
    if (words != 3 || pthread_attr_init(&attributes) != 0 || pthread_attr_setstacksize(&attributes, STACK) != 0)
        return 2;
    set_profile(names[1]);
    count = read_messages(names[2], messages, MESSAGES);
    wanted = calloc(count, sizeof *wanted);
    for (size_t i = 0; i < count; i++) {
        call_all(i, &wanted[i]);
        EXPECT(all_are((uint8_t *)wanted[i].statuses, sizeof wanted[i].statuses, ILLCANON_DONE));
    }
    for (size_t i = 0; i < THREADS; i++)
        if (pthread_create(&threads[i], &attributes, run, (void *)(3 * i)) != 0)
            return 2;
    for (size_t i = 0; i < THREADS; i++) {
        void *differ = (void *)1;
        EXPECT(pthread_join(threads[i], &differ) == 0 && differ == NULL);
    }
    printf("%d threads, %d rounds of %lu messages\n", THREADS, ROUNDS, (unsigned long)count);
    free(wanted);
    return failures != 0;
}
