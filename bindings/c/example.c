/* Prints each message of a stream: its size, the size of its normal form, its digest, and whether it is in normal form.
 *
 *     cc example.c -lillcanon -o example && ./example <messages.ber
 */
#include "illcanon.h"

#include <stdio.h>
#include <stdlib.h>

/* All that is left of a file, NULL where there is no memory for it. */
static uint8_t *read_all(FILE *file, size_t *count) {
    size_t room = 65536;
    uint8_t *octets = malloc(room);
    *count = 0;
    while (octets != NULL && !feof(file) && !ferror(file)) {
        if (*count == room) {
            uint8_t *more = realloc(octets, room *= 2);
            if (more == NULL)
                free(octets);
            octets = more;
        } else {
            *count += fread(octets + *count, 1, room - *count, file);
        }
    }
    return octets;
}

/* One line of a message. */
static uint32_t print(const uint8_t *message, size_t size, uint32_t number, struct illcanon_refusal *refusal) {
    static uint8_t form[ILLCANON_LIMIT];
    uint8_t digest[ILLCANON_DIGEST_SIZE];
    size_t form_size, digest_size, i;
    uint32_t normal, status;
    if ((status = illcanon_normalise(message, size, form, sizeof form, &form_size, refusal)) != ILLCANON_DONE ||
        (status = illcanon_digest(message, size, digest, sizeof digest, &digest_size, refusal)) != ILLCANON_DONE ||
        (status = illcanon_check(message, size, &normal, refusal)) != ILLCANON_DONE)
        return status;
    printf("message %lu: %lu octets, normal form %lu octets, %s, ", (unsigned long)number, (unsigned long)size,
           (unsigned long)form_size, normal ? "normal" : "not normal");
    for (i = 0; i < digest_size; i++)
        printf("%02x", digest[i]);
    printf("\n");
    return status;
}

/* Why a message is refused. */
static void print_refusal(uint32_t number, const struct illcanon_refusal *refusal) {
    char name[32];
    size_t size;
    if (illcanon_cause_name(refusal->cause, (uint8_t *)name, sizeof name, &size) != ILLCANON_DONE)
        size = 0;
    fprintf(stderr, "message %lu is refused at %lu: %.*s %s\n", (unsigned long)number, (unsigned long)refusal->at, (int)size, name,
            refusal->part);
}

int main(void) {
    size_t count, at, size;
    uint32_t number, status = ILLCANON_DONE;
    struct illcanon_refusal refusal;
    uint8_t *octets = read_all(stdin, &count);
    if (octets == NULL) {
        fprintf(stderr, "out of memory\n");
        return 3;
    }
    for (at = 0, number = 1; at < count; at += size, number++) {
        status = illcanon_next(octets + at, count - at, &size, &refusal);
        if (status == ILLCANON_DONE)
            status = print(octets + at, size, number, &refusal);
        if (status != ILLCANON_DONE)
            break;
    }
    free(octets);
    switch (status) {
    case ILLCANON_DONE:
        return 0;
    case ILLCANON_REFUSED:
        print_refusal(number, &refusal);
        return 1;
    case ILLCANON_NEEDS_MORE:
        fprintf(stderr, "message %lu is cut off\n", (unsigned long)number);
        return 1;
    default:
        fprintf(stderr, "out of memory\n");
        return 3;
    }
}
