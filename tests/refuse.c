/* Makes one allocation of a program fail: the one whose number, counted from 1, is in REFUSE. At
   the end of the program, the number of all allocations is written to the file in REFUSED. Also
   makes one open call for the file in REFUSE_FILE fail: the one whose number is in
   REFUSE_OPENING. */
#define _GNU_SOURCE
#include <dlfcn.h>
#include <errno.h>
#include <fcntl.h>
#include <stdarg.h>
#include <stdio.h>
#include <stdlib.h>
#include <string.h>

static long count, refused = -1;

static int refuses(void)
{
    if (refused < 0) {
        const char *text = getenv("REFUSE");
        refused = text ? atol(text) : 0;
    }
    return ++count == refused;
}

void *malloc(size_t size)
{
    static void *(*next)(size_t);
    if (!next)
        next = (void *(*)(size_t))dlsym(RTLD_NEXT, "malloc");
    return refuses() ? NULL : next(size);
}

void *calloc(size_t n, size_t size)
{
    static void *(*next)(size_t, size_t);
    if (!next)
        next = (void *(*)(size_t, size_t))dlsym(RTLD_NEXT, "calloc");
    return refuses() ? NULL : next(n, size);
}

void *realloc(void *block, size_t size)
{
    static void *(*next)(void *, size_t);
    if (!next)
        next = (void *(*)(void *, size_t))dlsym(RTLD_NEXT, "realloc");
    return refuses() ? NULL : next(block, size);
}

void *aligned_alloc(size_t align, size_t size)
{
    static void *(*next)(size_t, size_t);
    if (!next)
        next = (void *(*)(size_t, size_t))dlsym(RTLD_NEXT, "aligned_alloc");
    return refuses() ? NULL : next(align, size);
}

int open(const char *name, int flags, ...)
{
    static int (*next)(const char *, int, ...);
    static long openings;
    const char *file = getenv("REFUSE_FILE"), *number = getenv("REFUSE_OPENING");
    mode_t mode = 0;
    if (flags & O_CREAT) {
        va_list more;
        va_start(more, flags);
        mode = va_arg(more, mode_t);
        va_end(more);
    }
    if (!next)
        next = (int (*)(const char *, int, ...))dlsym(RTLD_NEXT, "open");
    if (file && number && !strcmp(file, name) && ++openings == atol(number)) {
        errno = EACCES;
        return -1;
    }
    return next(name, flags, mode);
}

__attribute__((destructor)) static void tell(void)
{
    const char *name = getenv("REFUSED");
    long asked = count;
    FILE *file;
    refused = 0;
    file = name ? fopen(name, "w") : NULL;
    if (file) {
        fprintf(file, "%ld\n", asked);
        fclose(file);
    }
}
