/* Stands before the C library's malloc and realloc: the request of the number in REFUSED, counted from 1, is refused.
 * It says so by a byte to the file of descriptor 3. tests/memory preloads it. */
#define _GNU_SOURCE
#include <dlfcn.h>
#include <stddef.h>
#include <stdlib.h>
#include <unistd.h>

static unsigned long made;

static int is_refused(void)
{
    const char *word = getenv("REFUSED");
    return word != NULL && ++made == strtoul(word, NULL, 10) && write(3, "", 1) == 1;
}

void *malloc(size_t size)
{
    static void *(*next)(size_t);
    if (next == NULL)
        *(void **)&next = dlsym(RTLD_NEXT, "malloc");
    return is_refused() ? NULL : next(size);
}

void *realloc(void *old, size_t size)
{
    static void *(*next)(void *, size_t);
    if (next == NULL)
        *(void **)&next = dlsym(RTLD_NEXT, "realloc");
    return is_refused() ? NULL : next(old, size);
}
