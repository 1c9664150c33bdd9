/* Compares src/wide.c with the numbers of 128 bits of the machine's own compiler: at edges, and at random. */
#define __multi3 multiplied
#define __udivti3 divided
#include "../src/wide.c"

#include <stdio.h>

#define EDGES 10
#define TRIES 300000

static unsigned long state = 7;

static unsigned long next(void) {
    state = state * 6364136223846793005ul + 1442695040888963407ul;
    return state ^ (state >> 29);
}

/* A number of any size up to 128 bits. */
static wide number(void) {
    return (((wide)next() << 64) | next()) >> (next() >> 57);
}

static unsigned long wrong = 0;

static void compare(wide a, wide b) {
    wrong += multiplied(a, b) != a * b;
    wrong += b != 0 && divided(a, b) != a / b;
}

int main(void) {
    const wide top = (wide)1 << 127, low = (wide)1 << 64;
    const wide edges[EDGES] = {0, 1, 2, 10, low - 1, low, low + 1, top - 1, top, top + (top - 1)};
    for (int i = 0; i < EDGES; i++)
        for (int k = 0; k < EDGES; k++)
            compare(edges[i], edges[k]);
    for (int i = 0; i < TRIES; i++)
        compare(number(), number());
    printf("%d pairs, %lu wrong\n", EDGES * EDGES + TRIES, wrong);
    return wrong != 0;
}
