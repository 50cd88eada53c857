/* Refuses one call of malloc or realloc, the one that REFUSE_AT numbers from 1, and tells at the end how many there were. With REFUSE_THREAD
   only the calls of one thread are numbered: threads are numbered from 0 in the order of their first calls, and the first one is 0. */
#define _GNU_SOURCE
#include <dlfcn.h>
#include <stdatomic.h>
#include <stddef.h>
#include <stdio.h>
#include <stdlib.h>

static atomic_long calls;
static atomic_long threads;
static long refused_at = -1;
static long refused_in = -1;
static __thread __attribute__((tls_model("initial-exec"))) long thread = -1;

static long number_in(const char *name, long otherwise) {
    const char *number = getenv(name);
    return number ? atol(number) : otherwise;
}

static int refused(void) {
    if (refused_at < 0) {
        refused_in = number_in("REFUSE_THREAD", -1);
        refused_at = number_in("REFUSE_AT", 0);
    }
    if (thread < 0) thread = atomic_fetch_add(&threads, 1);
    if (refused_in >= 0 && thread != refused_in) return 0;
    return atomic_fetch_add(&calls, 1) + 1 == refused_at;
}

void *malloc(size_t size) {
    static void *(*next)(size_t);
    if (!next) next = (void *(*)(size_t))dlsym(RTLD_NEXT, "malloc");
    return refused() ? NULL : next(size);
}

void *realloc(void *block, size_t size) {
    static void *(*next)(void *, size_t);
    if (!next) next = (void *(*)(void *, size_t))dlsym(RTLD_NEXT, "realloc");
    return refused() ? NULL : next(block, size);
}

__attribute__((destructor)) static void tell(void) {
    const char *file = getenv("REFUSE_TELLS");
    FILE *out = file ? fopen(file, "w") : NULL;
    if (out) {
        fprintf(out, "%ld\n", atomic_load(&calls));
        fclose(out);
    }
}

/* A program may end by `_exit`, which runs no destructor. */
void _exit(int status) {
    tell();
    ((void (*)(int))dlsym(RTLD_NEXT, "_exit"))(status);
    __builtin_unreachable();
}
