/* Refuses one growth of the program that it is loaded into: the one whose number stands in REFUSE_AT, from 1 on. How many were
   asked for stands in the file that REFUSE_COUNT names, as 8 bytes, the least first. */
#define _GNU_SOURCE
#include <dlfcn.h>
#include <fcntl.h>
#include <stdatomic.h>
#include <stdlib.h>
#include <sys/mman.h>
#include <unistd.h>

static atomic_long own;
static atomic_long *asked = &own;
static long refused;
static void *(*real_malloc)(size_t);
static void *(*real_realloc)(void *, size_t);

__attribute__((constructor)) static void begin(void)
{
    const char *at = getenv("REFUSE_AT"), *path = getenv("REFUSE_COUNT");
    int file = path ? open(path, O_RDWR | O_CREAT | O_TRUNC, 0600) : -1;
    real_malloc = dlsym(RTLD_NEXT, "malloc");
    real_realloc = dlsym(RTLD_NEXT, "realloc");
    if (file >= 0 && ftruncate(file, sizeof(long)) == 0) {
        void *shared = mmap(NULL, sizeof(long), PROT_READ | PROT_WRITE, MAP_SHARED, file, 0);
        if (shared != MAP_FAILED)
            asked = shared;
    }
    refused = at ? atol(at) : 0;
    atomic_store(asked, 0);
}

static int is_refused(void)
{
    return atomic_fetch_add(asked, 1) + 1 == refused;
}

void *malloc(size_t size)
{
    if (!real_malloc)
        real_malloc = dlsym(RTLD_NEXT, "malloc");
    return is_refused() ? NULL : real_malloc(size);
}

void *realloc(void *block, size_t size)
{
    if (!real_realloc)
        real_realloc = dlsym(RTLD_NEXT, "realloc");
    return is_refused() ? NULL : real_realloc(block, size);
}
