/* A library to preload, beside glibc's libc_malloc_debug, by which mtrace logs what a program
   allocates and frees to the file MALLOC_TRACE, from before its main. tools/record compiles it.

   The log is of this program alone. What it starts isn't traced: MALLOC_TRACE is taken out of the
   environment, and LD_PRELOAD is what RECORD_PRELOAD was, or nothing. The child of a fork has the
   log open, and in memory what the parent hasn't written yet: there both go to /dev/null. */
#define _GNU_SOURCE
#include <fcntl.h>
#include <mcheck.h>
#include <pthread.h>
#include <stdlib.h>
#include <unistd.h>

static int written = -1;

static void forked(void) {
    int none = open("/dev/null", O_WRONLY | O_CLOEXEC);
    if (none < 0 || dup3(none, written, O_CLOEXEC) < 0) close(written);
    if (none >= 0) close(none);
}

__attribute__((constructor)) static void begin(void) {
    const char *preload = getenv("RECORD_PRELOAD");
    if (!preload || !*preload) unsetenv("LD_PRELOAD");
    else if (setenv("LD_PRELOAD", preload, 1)) return;
    unsetenv("RECORD_PRELOAD");
    if (pthread_atfork(NULL, NULL, forked)) return;
    /* The lowest number that is free is what the log gets when mtrace opens it. */
    written = open("/dev/null", O_RDONLY | O_CLOEXEC);
    if (written < 0) return;
    close(written);
    mtrace();
    unsetenv("MALLOC_TRACE");
}
