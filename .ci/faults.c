// Stands before the C library: the call of the number FAIL_MEMORY gets no memory, the read or write of the number FAIL
// fails, and that of the number SHORT moves one byte. At the end COUNT has it print how many calls there were.
#define _GNU_SOURCE
#include <dlfcn.h>
#include <errno.h>
#include <stdio.h>
#include <stdlib.h>
#include <sys/types.h>

extern void *__libc_malloc(size_t);
extern void *__libc_realloc(void *, size_t);
extern void *__libc_memalign(size_t, size_t);

static long memory_calls, calls, no_memory, failing, shorter;

static long number(const char *name) {
    const char *text = getenv(name);
    return text ? atol(text) : 0;
}

__attribute__((constructor)) static void begin(void) {
    no_memory = number("FAIL_MEMORY");
    failing = number("FAIL");
    shorter = number("SHORT");
    memory_calls = calls = 0;
}

__attribute__((destructor)) static void end(void) {
    if (getenv("COUNT")) dprintf(2, "%ld %ld\n", memory_calls, calls);
}

static int refused(void) { return ++memory_calls == no_memory && (errno = ENOMEM); }

void *malloc(size_t size) { return refused() ? NULL : __libc_malloc(size); }

void *realloc(void *old, size_t size) { return refused() ? NULL : __libc_realloc(old, size); }

int posix_memalign(void **out, size_t align, size_t size) {
    if (refused()) return ENOMEM;
    *out = __libc_memalign(align, size);
    return *out ? 0 : ENOMEM;
}

ssize_t read(int file, void *bytes, size_t count) {
    static ssize_t (*real)(int, void *, size_t);
    if (!real) *(void **)&real = dlsym(RTLD_NEXT, "read");
    calls++;
    if (calls == failing) return errno = EIO, -1;
    return real(file, bytes, calls == shorter && count ? 1 : count);
}

ssize_t write(int file, const void *bytes, size_t count) {
    static ssize_t (*real)(int, const void *, size_t);
    if (!real) *(void **)&real = dlsym(RTLD_NEXT, "write");
    calls++;
    if (calls == failing) return errno = EIO, -1;
    return real(file, bytes, calls == shorter && count ? 1 : count);
}
