/* Loaded before the C library (LD_PRELOAD): refuses one allocation, the one that FAIL_ALLOC counts, from 1, and one new
   thread, the one that FAIL_THREAD counts. With 0, or without such a word, none is refused. At the end it writes both
   counts to the file that FAIL_ALLOC_COUNT names. Allocations of all threads are counted together. */
#define _GNU_SOURCE
#include <dlfcn.h>
#include <errno.h>
#include <pthread.h>
#include <stdio.h>
#include <stdlib.h>

static long count = 0, fails = -1, threads = 0, fails_thread = -1;

static long word(const char *name)
{
    const char *text = getenv(name);
    return text ? atol(text) : 0;
}

/* The first call is made before there are threads. */
static int refused(void)
{
    if (fails < 0)
        fails = word("FAIL_ALLOC");
    return __atomic_add_fetch(&count, 1, __ATOMIC_RELAXED) == fails;
}

void *malloc(size_t size)
{
    static void *(*real)(size_t);
    if (!real)
        real = (void *(*)(size_t))dlsym(RTLD_NEXT, "malloc");
    return refused() ? NULL : real(size);
}

void *realloc(void *block, size_t size)
{
    static void *(*real)(void *, size_t);
    if (!real)
        real = (void *(*)(void *, size_t))dlsym(RTLD_NEXT, "realloc");
    return refused() ? NULL : real(block, size);
}

int pthread_create(pthread_t *thread, const pthread_attr_t *attributes, void *(*start)(void *), void *given)
{
    typedef int (*create)(pthread_t *, const pthread_attr_t *, void *(*)(void *), void *);
    static create real;
    if (!real)
        real = (create)dlsym(RTLD_NEXT, "pthread_create");
    if (fails_thread < 0)
        fails_thread = word("FAIL_THREAD");
    return __atomic_add_fetch(&threads, 1, __ATOMIC_RELAXED) == fails_thread ? EAGAIN : real(thread, attributes, start, given);
}

__attribute__((destructor)) static void tell(void)
{
    const char *file = getenv("FAIL_ALLOC_COUNT");
    if (file) {
        FILE *out = fopen(file, "w");
        if (out) {
            fprintf(out, "%ld %ld\n", count, threads);
            fclose(out);
        }
    }
}

/* A program that may make threads ends by this call, and then no destructor runs. */
void _exit(int status)
{
    void (*real)(int) = (void (*)(int))dlsym(RTLD_NEXT, "_exit");
    tell();
    real(status);
    __builtin_unreachable();
}
