/* A library to preload under which standard output takes TAKES bytes, and STEP of them a write at
   most. The first write for which it has no room fails as one that was interrupted, or takes nothing
   where NOTHING is set; from then on it takes all, so that a write too many shows. */
#define _GNU_SOURCE
#include <dlfcn.h>
#include <errno.h>
#include <stdlib.h>
#include <unistd.h>

static size_t asked(const char *name)
{
    const char *text = getenv(name);
    return text ? strtoull(text, NULL, 10) : 0;
}

ssize_t write(int file, const void *bytes, size_t count)
{
    static ssize_t (*real)(int, const void *, size_t);
    static size_t left, step;
    static int has_stopped;
    size_t taken = count;
    if (!real) {
        real = (__typeof__(real))dlsym(RTLD_NEXT, "write");
        left = asked("TAKES");
        step = asked("STEP");
    }
    if (file != STDOUT_FILENO || has_stopped) return real(file, bytes, count);
    if (taken > left) taken = left;
    if (taken > step) taken = step;
    if (taken == 0) {
        has_stopped = 1;
        errno = EINTR;
        return getenv("NOTHING") ? 0 : -1;
    }
    left -= taken;
    return real(file, bytes, taken);
}
