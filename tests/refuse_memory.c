// Refuses one request for memory of the program that this is loaded into: the REFUSE-th, counted from 1. When it comes, the file
// REFUSED is made.

#include <fcntl.h>
#include <stddef.h>
#include <stdlib.h>
#include <unistd.h>

extern void *__libc_malloc(size_t size);
extern void *__libc_realloc(void *block, size_t size);

static long left;

__attribute__((constructor)) static void begin(void)
{
    const char *number = getenv("REFUSE");
    left = number ? atol(number) : 0;
}

static int is_refused(void)
{
    if (left == 0 || --left > 0)
        return 0;
    const char *mark = getenv("REFUSED");
    if (mark)
        close(open(mark, O_CREAT | O_WRONLY, 0600));
    return 1;
}

void *malloc(size_t size)
{
    return is_refused() ? NULL : __libc_malloc(size);
}

void *realloc(void *block, size_t size)
{
    return is_refused() ? NULL : __libc_realloc(block, size);
}
