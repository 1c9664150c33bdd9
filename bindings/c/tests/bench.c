/* `bench CALL FILE`: makes a call on each message of a file whose messages have one size. Instructions are counted from outside, as
 * bench.sh does. */
#include "../illcanon.h"

#include <stdio.h>
#include <stdlib.h>
#include <string.h>

static uint8_t octets[1 << 23], buffer[ILLCANON_LIMIT];

static uint32_t make(const char *call, const uint8_t *message, size_t count) {
    struct illcanon_refusal refusal;
    size_t size, read;
    uint32_t answer;
    if (strcmp(call, "normalise_next") == 0)
        return illcanon_normalise_next(message, count, &read, buffer, sizeof buffer, &size, &refusal);
    switch (call[0]) {
    case 'n':
        return call[1] == 'e' ? illcanon_next(message, count, &size, &refusal)
                              : illcanon_normalise(message, count, buffer, sizeof buffer, &size, &refusal);
    case 's':
        return call[1] == 'h' ? illcanon_show(message, count, 1, buffer, sizeof buffer, &size, &refusal)
                              : illcanon_same(message, count, message, count, &answer, &refusal);
    case 'd':
        return illcanon_digest(message, count, buffer, sizeof buffer, &size, &refusal);
    default:
        return illcanon_check(message, count, &answer, &refusal);
    }
}

int main(int words, char **names) {
    FILE *file = words == 3 ? fopen(names[2], "rb") : NULL;
    struct illcanon_refusal refusal;
    size_t count, size;
    if (file == NULL)
        return 2;
    count = fread(octets, 1, sizeof octets, file);
    fclose(file);
    if (illcanon_next(octets, count, &size, &refusal) != ILLCANON_DONE)
        return 1;
    for (size_t at = 0; at + size <= count; at += size)
        if (make(names[1], octets + at, size) != ILLCANON_DONE)
            return 1;
    return 0;
}
