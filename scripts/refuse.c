/* Loaded before the C library, refuses the request for memory that REFUSE numbers, of those that the program itself makes
   of malloc, calloc, realloc and aligned_alloc, and then makes the file that MET names. For scripts/fail_alloc.py. */
#define _GNU_SOURCE
#include <dlfcn.h>
#include <errno.h>
#include <fcntl.h>
#include <stdatomic.h>
#include <stdlib.h>
#include <sys/auxv.h>
#include <unistd.h>

static atomic_long met;

/* Whether the caller lies in the program itself and its request is the one to refuse, which is then told by a file. */
static int refused(void *caller) {
    Dl_info own, other;
    const char *number = getenv("REFUSE");
    if (!number || !dladdr((void *)getauxval(AT_PHDR), &own) || !dladdr(caller, &other))
        return 0;
    if (own.dli_fbase != other.dli_fbase || atomic_fetch_add(&met, 1) + 1 != atol(number))
        return 0;
    int file = open(getenv("MET"), O_CREAT | O_WRONLY, 0600);
    if (file >= 0)
        close(file);
    errno = ENOMEM;
    return 1;
}

#define HERE __builtin_return_address(0)
#define NEXT(type, name) \
    static type; \
    if (!next) *(void **)&next = dlsym(RTLD_NEXT, name)

void *malloc(size_t size) {
    NEXT(void *(*next)(size_t), "malloc");
    return refused(HERE) ? NULL : next(size);
}

void *realloc(void *old, size_t size) {
    NEXT(void *(*next)(void *, size_t), "realloc");
    return refused(HERE) ? NULL : next(old, size);
}

void *aligned_alloc(size_t to, size_t size) {
    NEXT(void *(*next)(size_t, size_t), "aligned_alloc");
    return refused(HERE) ? NULL : next(to, size);
}

/* dlsym may ask for zeroed memory before the next calloc is known: that comes from `early`, and is never given back. */
void *calloc(size_t count, size_t size) {
    static void *(*next)(size_t, size_t);
    static int looking;
    static char early[4096];
    static size_t used;
    if (!next && looking) {
        used += (count * size + 15) / 16 * 16;
        return used <= sizeof early ? early + used - (count * size + 15) / 16 * 16 : NULL;
    }
    looking = 1;
    if (!next) *(void **)&next = dlsym(RTLD_NEXT, "calloc");
    looking = 0;
    return refused(HERE) ? NULL : next(count, size);
}
