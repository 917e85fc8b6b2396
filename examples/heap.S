# The names of the heap's calls. Whoever runs the guest does such a call by itself where pc comes to its name,
# so what stands here never runs.

    .macro heap_call name
    .globl \name
    .type \name, @function
\name:
    ebreak
    .size \name, . - \name
    .endm

    .text
    heap_call malloc
    heap_call calloc
    heap_call realloc
    heap_call free
#ifdef ALIGNED
    heap_call aligned_alloc
#endif
