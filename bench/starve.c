/* Loaded into a program (LD_PRELOAD), makes its allocation number STARVE_AT fail, counted from 1, and says so by one byte on the descriptor
   STARVE_TELL. bench/starve builds and uses it. glibc only: it hands all other calls on under the names that glibc has for that. */
#include <errno.h>
#include <stddef.h>
#include <stdlib.h>
#include <unistd.h>

extern void *__libc_malloc(size_t);
extern void *__libc_realloc(void *, size_t);

static long left = -1;
static int tell = -1;

static int fails(void)
{
    if (left == -1) {
        const char *at = getenv("STARVE_AT"), *descriptor = getenv("STARVE_TELL");
        left = at ? atol(at) : 0;
        tell = descriptor ? atoi(descriptor) : -1;
    }
    if (left == 0 || --left != 0)
        return 0;
    if (write(tell, "!", 1) != 1)
        abort();
    errno = ENOMEM;
    return 1;
}

void *malloc(size_t bytes)
{
    return fails() ? NULL : __libc_malloc(bytes);
}

void *realloc(void *block, size_t bytes)
{
    return fails() ? NULL : __libc_realloc(block, bytes);
}
