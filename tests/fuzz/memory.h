/* The memory of the calls, where some of it is refused: bindings/c/memory.c is compiled with these in place of malloc, realloc and free. */
#ifndef MEMORY_H
#define MEMORY_H

#include <stddef.h>

void *fuzz_malloc(size_t count);
void *fuzz_realloc(void *block, size_t count);
void fuzz_free(void *block);

#endif
