/* Stands in front of the allocator of the C library: counts the calls that ask for memory, and refuses one of them.

   REFUSED, the call that is refused, counted from 1; none where it is missing. COUNTED, the file into which their number goes. */
#define _GNU_SOURCE
#include <dlfcn.h>
#include <fcntl.h>
#include <stdio.h>
#include <stdlib.h>
#include <unistd.h>

static long asked, refused;
static void *(*real_malloc)(size_t);
static void *(*real_calloc)(size_t, size_t);
static void *(*real_realloc)(void *, size_t);
static void *(*real_aligned_alloc)(size_t, size_t);
static int (*real_posix_memalign)(void **, size_t, size_t);

__attribute__((constructor)) static void begin(void)
{
    const char *told = getenv("REFUSED");
    real_malloc = dlsym(RTLD_NEXT, "malloc");
    real_calloc = dlsym(RTLD_NEXT, "calloc");
    real_realloc = dlsym(RTLD_NEXT, "realloc");
    real_aligned_alloc = dlsym(RTLD_NEXT, "aligned_alloc");
    real_posix_memalign = dlsym(RTLD_NEXT, "posix_memalign");
    refused = told ? atol(told) : 0;
    asked = 0;
}

__attribute__((destructor)) static void end(void)
{
    char line[32];
    const char *name = getenv("COUNTED");
    if (!name)
        return;
    int file = open(name, O_WRONLY | O_CREAT | O_TRUNC, 0644);
    if (write(file, line, snprintf(line, sizeof line, "%ld\n", asked)) < 0)
        _exit(99);
    close(file);
}

static int is_refused(void)
{
    return ++asked == refused;
}

void *malloc(size_t size)
{
    if (!real_malloc)
        begin();
    return is_refused() ? NULL : real_malloc(size);
}

void *calloc(size_t count, size_t size)
{
    /* `dlsym` may ask before it has answered; it does without */
    if (!real_calloc)
        return NULL;
    return is_refused() ? NULL : real_calloc(count, size);
}

void *realloc(void *before, size_t size)
{
    if (!real_realloc)
        begin();
    return is_refused() ? NULL : real_realloc(before, size);
}

void *aligned_alloc(size_t alignment, size_t size)
{
    if (!real_aligned_alloc)
        begin();
    return is_refused() ? NULL : real_aligned_alloc(alignment, size);
}

int posix_memalign(void **result, size_t alignment, size_t size)
{
    if (!real_posix_memalign)
        begin();
    return is_refused() ? 12 : real_posix_memalign(result, alignment, size);
}
