/* The three functions by which the library asks for memory, over C's heap, for processors other than x86-64: for that
   one alone the toolchain has them. */
#include <stddef.h>

void *malloc(size_t size);
void *realloc(void *old, size_t size);
void free(void *old);

/* Whether there is memory, and where; else a byte that nobody looks at. */
struct tried {
    size_t is_there;
    const void *at;
};

static const char nothing = 0;

static struct tried told(const void *at) {
    return (struct tried){at != 0, at ? at : &nothing};
}

struct tried rattle_alloc(size_t size, size_t alignment) {
    return told(malloc(size ? size : alignment));
}

struct tried rattle_realloc(void *old, size_t kept, size_t size, size_t alignment) {
    (void)kept;
    return told(realloc(old, size ? size : alignment));
}

void rattle_dealloc(void *old) {
    free(old);
}
