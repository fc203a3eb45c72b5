/* A library to preload that refuses the Nth request for memory, where REFUSE=N, or to start the Nth
   thread, where THREAD=N, and ends the process with status 99 where there were fewer of them. Where
   COUNT=FILE, it writes into that file how many requests there were, and of how many bytes
   together. */
#define _GNU_SOURCE
#include <dlfcn.h>
#include <errno.h>
#include <pthread.h>
#include <stdatomic.h>
#include <stddef.h>
#include <stdio.h>
#include <stdlib.h>
#include <sys/syscall.h>
#include <unistd.h>

static atomic_long requests, threads, refused = -1, unstarted = -1;
static atomic_size_t bytes;

/* The number that a variable of the environment asks for, or 0; read once. */
static long asked(const char *name, atomic_long *known)
{
    if (*known < 0) {
        const char *text = getenv(name);
        *known = text ? atol(text) : 0;
    }
    return *known;
}

static int is_refused(size_t size)
{
    const long refused_now = asked("REFUSE", &refused);
    bytes += size;
    if (++requests != refused_now) return 0;
    errno = ENOMEM; /* as who asks may look at it: the C library does, where it starts a thread */
    return 1;
}

#define REAL(name) \
    static __typeof__(name) *real; \
    if (!real) real = (__typeof__(name) *)dlsym(RTLD_NEXT, #name)

void *malloc(size_t size)
{
    REAL(malloc);
    return is_refused(size) ? NULL : real(size);
}

void *calloc(size_t count, size_t size)
{
    REAL(calloc);
    return is_refused(count * size) ? NULL : real(count, size);
}

void *realloc(void *old, size_t size)
{
    REAL(realloc);
    return is_refused(size) ? NULL : real(old, size);
}

void *aligned_alloc(size_t align, size_t size)
{
    REAL(aligned_alloc);
    return is_refused(size) ? NULL : real(align, size);
}

int posix_memalign(void **out, size_t align, size_t size)
{
    REAL(posix_memalign);
    return is_refused(size) ? 12 : real(out, align, size);
}

int pthread_create(pthread_t *thread, const pthread_attr_t *how, void *(*run)(void *), void *with)
{
    REAL(pthread_create);
    return ++threads == asked("THREAD", &unstarted) ? EAGAIN : real(thread, how, run, with);
}

static _Noreturn void end(int status)
{
    for (;;) syscall(SYS_exit_group, status);
}

static void write_count(const char *path, long count, size_t sum)
{
    FILE *file = fopen(path, "w");
    if (!file) end(98);
    fprintf(file, "%ld %zu\n", count, sum);
    if (fclose(file)) end(98);
}

__attribute__((destructor)) static void at_the_end(void)
{
    const long count = requests;
    const size_t sum = bytes;
    const char *path = getenv("COUNT");
    if (path) write_count(path, count, sum);
    if (count < asked("REFUSE", &refused) || threads < asked("THREAD", &unstarted)) end(99);
}

/* A program of several threads ends by this, and no destructor runs. */
void _exit(int status)
{
    at_the_end();
    end(status);
}
