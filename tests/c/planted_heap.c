/* tools/heap.c with a planted fault, which the tests of the C functions have to find. With -DHEAP_FAULT=1, a refused
   request returns a block. With 2, a resized block loses its contents. With 3, no block is freed, which the address
   sanitizer finds. */
#include <stdlib.h>
#include <string.h>

#if HEAP_FAULT == 1
static inline void *never_null(void *block) {
    static char room[1 << 16];
    return block ? block : room;
}
#define malloc(size) never_null(malloc(size))
#elif HEAP_FAULT == 2
static inline void *emptied(void *block, size_t size) { return block ? memset(block, 0, size) : block; }
#define realloc(old, size) emptied(realloc(old, size), old_size < (size) ? old_size : (size))
#elif HEAP_FAULT == 3
#define free(block) ((void)(block))
#endif

#include "../../tools/heap.c"
