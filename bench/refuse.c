// refuse.c: loaded before the C library (LD_PRELOAD), it refuses one request for memory: the one whose number REFUSE
// gives, counted from 1. How many there were it writes into the file that REQUESTS names.
#define _GNU_SOURCE
#include <dlfcn.h>
#include <errno.h>
#include <stdio.h>
#include <stdlib.h>
#include <sys/syscall.h>
#include <unistd.h>
static long count, nth;
__attribute__((destructor)) static void told(void) {
    long all = count;
    const char *s = getenv("REQUESTS");
    FILE *f = s ? fopen(s, "w") : 0;
    if (f) {
        fprintf(f, "%ld\n", all);
        fclose(f);
    }
}
// A program of threads ends by this, without its destructors.
void _exit(int status) {
    told();
    syscall(SYS_exit_group, status);
    __builtin_unreachable();
}
static int refuse(void) {
    if (!nth) {
        const char *s = getenv("REFUSE");
        nth = s ? atol(s) : -1;
    }
    return ++count == nth;
}
void *malloc(size_t n) {
    static void *(*f)(size_t);
    if (!f)
        f = dlsym(RTLD_NEXT, "malloc");
    if (refuse()) {
        errno = ENOMEM;
        return 0;
    }
    return f(n);
}
void *realloc(void *p, size_t n) {
    static void *(*f)(void *, size_t);
    if (!f)
        f = dlsym(RTLD_NEXT, "realloc");
    if (refuse()) {
        errno = ENOMEM;
        return 0;
    }
    return f(p, n);
}
void *aligned_alloc(size_t a, size_t n) {
    static void *(*f)(size_t, size_t);
    if (!f)
        f = dlsym(RTLD_NEXT, "aligned_alloc");
    if (refuse()) {
        errno = ENOMEM;
        return 0;
    }
    return f(a, n);
}
int posix_memalign(void **p, size_t a, size_t n) {
    static int (*f)(void **, size_t, size_t);
    if (!f)
        f = dlsym(RTLD_NEXT, "posix_memalign");
    if (refuse())
        return ENOMEM;
    return f(p, a, n);
}
void *calloc(size_t m, size_t n) {
    static void *(*f)(size_t, size_t);
    static char early[4096];
    static size_t used;
    if (!f) {
        f = dlsym(RTLD_NEXT, "calloc");
    }
    if (!f) {
        used += m * n;
        return early + used - m * n;
    }
    if (refuse()) {
        errno = ENOMEM;
        return 0;
    }
    return f(m, n);
}
