/* The heap, as the C library has it. For a guest nothing stands behind these, see heap.S. */
#ifndef HEAP_H
#define HEAP_H

#if __STDC_HOSTED__
#include <stdlib.h>
#else
#include <stddef.h>

void *malloc(size_t size);
void *calloc(size_t count, size_t size);
void *realloc(void *object, size_t size);
void free(void *object);
void *aligned_alloc(size_t alignment, size_t size);
#endif

#endif
