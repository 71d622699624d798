/*
 * Starts a program once, and tells how much of the processor it took and how
 * much memory it held at most.
 *
 *     spawn SECONDS INPUT OUTPUT ERRORS PROGRAM [WORD...]
 *
 * Standard input of the program is the file INPUT, standard output goes to the
 * file OUTPUT, and standard error to the file ERRORS. The system ends the program
 * once it has taken so many seconds of the processor. One line tells of the
 * run: nanoseconds of the processor, user and system together; nanoseconds by
 * the clock; greatest resident memory in KiB; status. The status of a program
 * that a signal ended is the number of the signal, below zero.
 *
 * This is a small program of its own since the system counts the memory of
 * whoever starts a program into that program's greatest memory.
 */
#define _GNU_SOURCE
#include <fcntl.h>
#include <spawn.h>
#include <stdio.h>
#include <stdlib.h>
#include <sys/resource.h>
#include <sys/wait.h>
#include <time.h>

extern char **environ;

/* How many seconds later the system kills a program that went on. */
enum { SPARE_SECONDS = 5 };

static long long clock_nanoseconds(void)
{
    struct timespec now;
    clock_gettime(CLOCK_MONOTONIC, &now);
    return now.tv_sec * 1000000000LL + now.tv_nsec;
}

static long long processor_nanoseconds(const struct rusage *usage)
{
    long long seconds = usage->ru_utime.tv_sec + usage->ru_stime.tv_sec;
    return seconds * 1000000000LL + (usage->ru_utime.tv_usec + usage->ru_stime.tv_usec) * 1000LL;
}

/* Limits the processor of the programs that are started, and leaves no core of one that the limit ends. */
static int limit_processor(rlim_t seconds)
{
    struct rlimit processor = {seconds, seconds + SPARE_SECONDS};
    struct rlimit core = {0, 0};
    return setrlimit(RLIMIT_CPU, &processor) == 0 && setrlimit(RLIMIT_CORE, &core) == 0;
}

int main(int count, char **words)
{
    int status;
    pid_t child;
    struct rusage usage;
    posix_spawn_file_actions_t files;
    if (count < 6 || !limit_processor(strtoul(words[1], NULL, 10)))
        return 2;
    posix_spawn_file_actions_init(&files);
    posix_spawn_file_actions_addopen(&files, 0, words[2], O_RDONLY, 0);
    posix_spawn_file_actions_addopen(&files, 1, words[3], O_WRONLY | O_CREAT | O_TRUNC, 0600);
    posix_spawn_file_actions_addopen(&files, 2, words[4], O_WRONLY | O_CREAT | O_TRUNC, 0600);
    long long start = clock_nanoseconds();
    if (posix_spawn(&child, words[5], &files, NULL, words + 5, environ) != 0)
        return 1;
    if (wait4(child, &status, 0, &usage) != child)
        return 1;
    long long waited = clock_nanoseconds() - start;
    status = WIFEXITED(status) ? WEXITSTATUS(status) : -WTERMSIG(status);
    printf("%lld %lld %ld %d\n", processor_nanoseconds(&usage), waited, usage.ru_maxrss, status);
    return 0;
}
