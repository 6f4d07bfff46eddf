/* Stands before the allocator of a test program: refuses one growth of memory, the call of malloc or realloc whose
 * number, from 1 on, is in REFUSED_GROWTH, of those that ask for more, and tells of that by the line TOLD. It links the
 * program to the path KEPT where its folder is the current one. */
#include <fcntl.h>
#include <stddef.h>
#include <stdlib.h>
#include <unistd.h>

/* Those of the run's checks of memory. */
extern void *__interceptor_malloc(size_t);
extern void *__interceptor_realloc(void *, size_t);
extern size_t __sanitizer_get_allocated_size(const volatile void *);

static const char told[] = "\n" TOLD "\n";
static long refused, calls;

__attribute__((constructor)) static void begin(void)
{
    const char *text = getenv("REFUSED_GROWTH");

    refused = text ? atol(text) : 0;
    /* It may be there already. */
    (void)!linkat(AT_FDCWD, "program", AT_FDCWD, KEPT, 0);
}

static int is_refused(void)
{
    if (refused <= 0 || ++calls != refused)
        return 0;
    (void)!write(STDERR_FILENO, told, sizeof told - 1);
    return 1;
}

void *malloc(size_t size)
{
    return is_refused() ? NULL : __interceptor_malloc(size);
}

void *realloc(void *block, size_t size)
{
    /* Room that is given back is no growth. */
    if (block && size < __sanitizer_get_allocated_size(block))
        return __interceptor_realloc(block, size);
    return is_refused() ? NULL : __interceptor_realloc(block, size);
}
