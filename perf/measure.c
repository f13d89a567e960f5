/* measure.c - measure INPUT OUTPUT PROGRAM WORD..: runs a program with these files as its
 * standard input and output, and prints its time from start to end and its processor time in
 * microseconds, and its peak memory in KiB.  The peak is never below that of this program, which
 * starts the other.  Exit status 1 where the program fails. */
#define _DEFAULT_SOURCE
#include <fcntl.h>
#include <stdio.h>
#include <stdlib.h>
#include <time.h>
#include <unistd.h>
#include <sys/resource.h>
#include <sys/wait.h>

static long long micro(long seconds, long rest) { return seconds * 1000000LL + rest; }

static void to(int place, const char *path, int flags)
{
    const int fd = open(path, flags, 0666);
    if (fd < 0 || dup2(fd, place) < 0) { perror(path); _exit(2); }
    close(fd);
}

int main(int argc, char **argv)
{
    if (argc < 4) { fprintf(stderr, "usage: measure INPUT OUTPUT PROGRAM WORD..\n"); return 2; }
    struct timespec a, b;
    struct rusage used;
    int status;
    clock_gettime(CLOCK_MONOTONIC, &a);
    const pid_t child = fork();
    if (child == 0) {
        to(0, argv[1], O_RDONLY);
        to(1, argv[2], O_WRONLY | O_CREAT | O_TRUNC);
        execv(argv[3], argv + 3);
        perror(argv[3]);
        _exit(2);
    }
    if (child < 0 || wait4(child, &status, 0, &used) != child) { perror("measure"); return 2; }
    clock_gettime(CLOCK_MONOTONIC, &b);
    if (!WIFEXITED(status) || WEXITSTATUS(status) != 0) { fprintf(stderr, "measure: %s failed\n", argv[3]); return 1; }
    printf("%lld %lld %ld\n", micro(b.tv_sec - a.tv_sec, (b.tv_nsec - a.tv_nsec) / 1000),
           micro(used.ru_utime.tv_sec + used.ru_stime.tv_sec, used.ru_utime.tv_usec + used.ru_stime.tv_usec), used.ru_maxrss);
    return 0;
}
