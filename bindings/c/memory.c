/* The memory of libillcanon: what the calls take by malloc and realloc, and free. A block is never of 0 octets. */
#include <stddef.h>
#include <stdint.h>
#include <stdlib.h>

/* Whether there is a block, and where. The pointer is never NULL. */
struct tried {
    uint64_t is_there;
    uint8_t *block;
};

struct tried rattle_alloc(size_t size, size_t alignment);
struct tried rattle_realloc(uint8_t *block, size_t kept, size_t size, size_t alignment);
void rattle_dealloc(uint8_t *block);

static uint8_t nothing;

static struct tried tried(uint8_t *block) {
    struct tried result;
    result.is_there = block != NULL;
    result.block = block != NULL ? block : &nothing;
    return result;
}

/* malloc aligns a block to each power of two up to 16 that divides its size; no other alignment is asked for. */
struct tried rattle_alloc(size_t size, size_t alignment) {
    return tried(malloc(size != 0 ? size : alignment));
}

struct tried rattle_realloc(uint8_t *block, size_t kept, size_t size, size_t alignment) {
    (void)kept;
    return tried(realloc(block, size != 0 ? size : alignment));
}

void rattle_dealloc(uint8_t *block) {
    free(block);
}
