/* The three functions by which the proved code requests memory from the C library, for processors other than x86-64.
   For x86-64, the toolchain has compiled ones. tests/aarch64 runs tests/c with these on aarch64, and tests/c_and_python on
   x86-64.

   A request returns a pair in two registers: 1 and the block, or 0 and an address that isn't null. A request for 0
   bytes gets as many bytes as the alignment. No alignment is greater than that of malloc. */
#include <stddef.h>
#include <stdint.h>
#include <stdlib.h>

_Static_assert(sizeof(size_t) == 8, "size_t has 64 bits");
_Static_assert(_Alignof(max_align_t) >= 16, "malloc aligns blocks for 128-bit numbers");

struct answer {
    uint64_t is_there;
    void *block;
};

struct answer rattle_alloc(size_t size, size_t alignment);
struct answer rattle_realloc(void *old, size_t old_size, size_t size, size_t alignment);
void rattle_dealloc(void *block);

static char nothing[16];

static struct answer answer(void *block) {
    return (struct answer){block != NULL, block != NULL ? block : nothing};
}

struct answer rattle_alloc(size_t size, size_t alignment) { return answer(malloc(size != 0 ? size : alignment)); }

struct answer rattle_realloc(void *old, size_t old_size, size_t size, size_t alignment) {
    (void)old_size;
    return answer(realloc(old, size != 0 ? size : alignment));
}

void rattle_dealloc(void *block) { free(block); }
