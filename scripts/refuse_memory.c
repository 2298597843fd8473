/* Preloaded into a program, it refuses one of the program's requests for memory: the one whose number, counted from 1, is in
 * REFUSED_REQUEST. If COUNTED_REQUESTS names a file, it writes the number of all requests there at the end. */
#define _GNU_SOURCE
#include <dlfcn.h>
#include <errno.h>
#include <stddef.h>
#include <stdio.h>
#include <stdlib.h>

static unsigned long requests, refused;

/* Looks up the C library's own function, once per name. */
#define REAL(result, name, ...)                                  \
    static result (*real_##name)(__VA_ARGS__);                   \
    if (real_##name == NULL)                                     \
        *(void **)&real_##name = dlsym(RTLD_NEXT, #name)

static int is_refused(void)
{
    requests++;
    if (requests != refused)
        return 0;
    errno = ENOMEM;
    return 1;
}

void *malloc(size_t size)
{
    REAL(void *, malloc, size_t);
    return is_refused() ? NULL : real_malloc(size);
}

void *realloc(void *old, size_t size)
{
    REAL(void *, realloc, void *, size_t);
    return is_refused() ? NULL : real_realloc(old, size);
}

void *aligned_alloc(size_t alignment, size_t size)
{
    REAL(void *, aligned_alloc, size_t, size_t);
    return is_refused() ? NULL : real_aligned_alloc(alignment, size);
}

int posix_memalign(void **to, size_t alignment, size_t size)
{
    REAL(int, posix_memalign, void **, size_t, size_t);
    return is_refused() ? ENOMEM : real_posix_memalign(to, alignment, size);
}

/* Requests before main are the C library's own and do not count. */
__attribute__((constructor)) static void begin(void)
{
    const char *number = getenv("REFUSED_REQUEST");
    requests = 0;
    refused = number == NULL ? 0 : strtoul(number, NULL, 10);
}

__attribute__((destructor)) static void end(void)
{
    unsigned long all = requests;
    const char *name = getenv("COUNTED_REQUESTS");
    FILE *file = name == NULL ? NULL : fopen(name, "w");
    if (file != NULL) {
        fprintf(file, "%lu\n", all);
        fclose(file);
    }
}
