/* The memory of the module: the blocks that the proved code takes from the heap, and those that JavaScript takes for octets.
 *
 * A block has a power of two of octets, from 32 on, and begins with a word that says which. A block that is given back goes to the list
 * of its size. The memory of the module grows where that list is empty, up to MOST.
 */
typedef unsigned long size_t; /* 64 bits, as the proved code has them */
typedef unsigned char octet;

_Static_assert(sizeof(size_t) == 8 && sizeof(void *) == 8, "the proved code has addresses of 64 bits");

#define PAGE 65536ul
#define MOST (1ul << 30)
#define HEAD 16ul /* so that each block is aligned as malloc aligns it */
#define LEAST_ORDER 5
#define ORDERS 31

extern octet __heap_base;

struct block {
    size_t order;
    struct block *next;
};

static struct block *free_blocks[ORDERS];
static size_t end; /* the first octet that no block has; 0 before the first call */

/* Whether there is a block, and where. The pointer is never null. */
struct tried {
    size_t is_there;
    octet *block;
};

static octet nothing[16] __attribute__((aligned(16)));

/* Grows the memory by pages. Where it can't grow, the instruction returns -1: of 64 bits, or, once addresses are lowered to 32 bits, of 32. */
static int grow_by(size_t pages) {
    return __builtin_wasm_memory_grow(0, pages) <= MOST / PAGE;
}

/* Grows the memory until it has this many octets. It grows by an eighth at least, where that is possible: an engine may collect garbage
 * each time. */
static int grow_to(size_t wanted) {
    size_t there = __builtin_wasm_memory_size(0) * PAGE, eighth = there / 8 / PAGE;
    if (wanted <= there)
        return 1;
    size_t pages = (wanted - there + PAGE - 1) / PAGE;
    if (pages < eighth && there + eighth * PAGE <= MOST && grow_by(eighth))
        return 1;
    return grow_by(pages);
}

static octet *new_block(size_t order) {
    if (!end)
        end = ((size_t)&__heap_base + 15) & ~15ul;
    size_t after = end + (1ul << order);
    if (after > MOST || !grow_to(after))
        return 0;
    struct block *block = (struct block *)end;
    end = after;
    block->order = order;
    return (octet *)block + HEAD;
}

static octet *take(size_t size) {
    if (size > MOST)
        return 0;
    size_t order = LEAST_ORDER;
    while ((1ul << order) < size + HEAD)
        order++;
    if (order >= ORDERS)
        return 0;
    struct block *block = free_blocks[order];
    if (!block)
        return new_block(order);
    free_blocks[order] = block->next;
    return (octet *)block + HEAD;
}

static void give(octet *octets) {
    struct block *block = (struct block *)(octets - HEAD);
    block->next = free_blocks[block->order];
    free_blocks[block->order] = block;
}

static struct tried tried(octet *block) {
    struct tried result = {block != 0, block ? block : nothing};
    return result;
}

struct tried rattle_alloc(size_t size, size_t alignment) {
    (void)alignment;
    return tried(take(size));
}

struct tried rattle_realloc(octet *block, size_t kept, size_t size, size_t alignment) {
    (void)alignment;
    size_t room = (1ul << ((struct block *)(block - HEAD))->order) - HEAD;
    if (size <= room)
        return tried(block);
    octet *other = take(size);
    if (other) {
        __builtin_memcpy(other, block, kept < room ? kept : room);
        give(block);
    }
    return tried(other);
}

void rattle_dealloc(octet *block) {
    give(block);
}

/* For JavaScript. */
__attribute__((export_name("page_take"))) octet *page_take(size_t size) {
    return take(size);
}

__attribute__((export_name("page_give"))) void page_give(octet *block) {
    give(block);
}

/* Compiled code calls these by name. */
void *memcpy(void *restrict to, const void *restrict from, size_t count) {
    octet *a = to;
    const octet *b = from;
    for (; count; count--)
        *a++ = *b++;
    return to;
}

void *memmove(void *to, const void *from, size_t count) {
    octet *a = to;
    const octet *b = from;
    if (a < b)
        for (; count; count--)
            *a++ = *b++;
    else
        while (count--)
            a[count] = b[count];
    return to;
}

void *memset(void *to, int value, size_t count) {
    octet *a = to;
    for (; count; count--)
        *a++ = (octet)value;
    return to;
}

int memcmp(const void *one, const void *other, size_t count) {
    const octet *a = one, *b = other;
    for (; count; count--, a++, b++)
        if (*a != *b)
            return *a < *b ? -1 : 1;
    return 0;
}
