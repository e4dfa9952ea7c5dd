/* A library to preload that refuses memory to a program, for refuse_memory.py: malloc, calloc, realloc and the calls
   for aligned memory are counted from 1 on, and one of them fails, or all from one on.

   REFUSE_FROM    the number of the first call that fails; 0 for none
   REFUSE_TO      the number of the last one
   REFUSE_COUNT   a file that gets how many calls there were, where the program ends by exit or by a return of main */
#define _GNU_SOURCE
#include <dlfcn.h>
#include <errno.h>
#include <fcntl.h>
#include <stdbool.h>
#include <stddef.h>
#include <stdlib.h>
#include <unistd.h>

/* The C library's own, under the names that it also has for them. */
void *__libc_malloc(size_t size);
void *__libc_calloc(size_t count, size_t size);
void *__libc_realloc(void *block, size_t size);
void *__libc_memalign(size_t alignment, size_t size);

static unsigned long from, to, calls;

static bool is_refused(void)
{
    unsigned long number = ++calls;
    if (number < from || number > to)
        return false;
    errno = ENOMEM;
    return true;
}

void *malloc(size_t size)
{
    return is_refused() ? NULL : __libc_malloc(size);
}

void *calloc(size_t count, size_t size)
{
    return is_refused() ? NULL : __libc_calloc(count, size);
}

void *realloc(void *block, size_t size)
{
    return is_refused() ? NULL : __libc_realloc(block, size);
}

void *memalign(size_t alignment, size_t size)
{
    return is_refused() ? NULL : __libc_memalign(alignment, size);
}

void *aligned_alloc(size_t alignment, size_t size)
{
    return is_refused() ? NULL : __libc_memalign(alignment, size);
}

int posix_memalign(void **block, size_t alignment, size_t size)
{
    void *taken = is_refused() ? NULL : __libc_memalign(alignment, size);
    if (taken == NULL)
        return ENOMEM;
    *block = taken;
    return 0;
}

static unsigned long number_in(const char *name)
{
    const char *text = getenv(name);
    return text == NULL ? 0 : strtoul(text, NULL, 10);
}

/* Runs before main, so that calls before it aren't counted. The first call is number 1, so 0 refuses none. */
__attribute__((constructor)) static void begin(void)
{
    calls = 0;
    from = number_in("REFUSE_FROM");
    to = from == 0 ? 0 : number_in("REFUSE_TO");
}

__attribute__((destructor)) static void end(void)
{
    const char *path = getenv("REFUSE_COUNT");
    int file = path == NULL ? -1 : open(path, O_WRONLY | O_CREAT | O_TRUNC, 0600);
    if (file < 0)
        return;
    char digits[24], *first = digits + sizeof digits;
    for (unsigned long left = calls; left > 0 || first == digits + sizeof digits; left /= 10)
        *--first = (char)('0' + left % 10);
    if (write(file, first, (size_t)(digits + sizeof digits - first)) < 0)
        _exit(125);
    close(file);
}
