// Runs a command once and tells what it took:
//     measure INPUT COMMAND WORD..
// with standard input from INPUT and standard output to /dev/null. Prints
//     NANOSECONDS CPU_NANOSECONDS PEAK_KIBIBYTES STATUS
#include <fcntl.h>
#include <spawn.h>
#include <stdio.h>
#include <sys/resource.h>
#include <sys/wait.h>
#include <time.h>

extern char **environ;

static long long nanoseconds(struct timespec t) { return t.tv_sec * 1000000000LL + t.tv_nsec; }

static long long of_timeval(struct timeval t) {
    return t.tv_sec * 1000000000LL + t.tv_usec * 1000LL;
}

int main(int count, char **words) {
    if (count < 3) {
        fputs("usage: measure INPUT COMMAND WORD..\n", stderr);
        return 2;
    }
    posix_spawn_file_actions_t files;
    posix_spawn_file_actions_init(&files);
    posix_spawn_file_actions_addopen(&files, 0, words[1], O_RDONLY, 0);
    posix_spawn_file_actions_addopen(&files, 1, "/dev/null", O_WRONLY, 0);
    struct timespec before, after;
    pid_t child;
    clock_gettime(CLOCK_MONOTONIC, &before);
    if (posix_spawnp(&child, words[2], &files, NULL, words + 2, environ)) {
        perror(words[2]);
        return 1;
    }
    int status;
    struct rusage usage;
    if (wait4(child, &status, 0, &usage) < 0) {
        perror("wait4");
        return 1;
    }
    clock_gettime(CLOCK_MONOTONIC, &after);
    printf("%lld %lld %ld %d\n", nanoseconds(after) - nanoseconds(before),
           of_timeval(usage.ru_utime) + of_timeval(usage.ru_stime), usage.ru_maxrss,
           WIFEXITED(status) ? WEXITSTATUS(status) : 128 + WTERMSIG(status));
    return 0;
}
