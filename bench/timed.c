/*
 * Runs a program and tells what it took: timed INPUT OUTPUT PROGRAM [ARGUMENTS...]
 *
 * The program gets the file INPUT as standard input and the file OUTPUT, which is emptied first, as standard output.
 * Once it has ended with status 0 one line is printed: its processor time, user and system together, and its elapsed
 * time, both in microseconds, and its peak memory in KiB. Otherwise nothing is printed and the status is 1.
 *
 * The declarations are those of x86-64 Linux, since no header is at hand.
 */

typedef __SIZE_TYPE__ usize;

struct timeval {
    long seconds, microseconds;
};

struct timespec {
    long seconds, nanoseconds;
};

struct rusage {
    struct timeval user, system;
    long peak;
    long others[13];
};

extern int open(const char *path, int flags, ...);
extern int dup2(int file, int number);
extern int fork(void);
extern int execv(const char *path, char *const arguments[]);
extern int wait4(int process, int *status, int options, struct rusage *usage);
extern int clock_gettime(int clock, struct timespec *time);
extern int printf(const char *format, ...);
extern int fflush(void *file);
extern void _exit(int status) __attribute__((noreturn));

enum { READ_ONLY = 0, WRITE_ANEW = 01 | 0100 | 01000, MONOTONIC = 1 };

static long microseconds(struct timeval t)
{
    return t.seconds * 1000000 + t.microseconds;
}

int main(int argc, char **argv)
{
    struct timespec begin, end;
    struct rusage usage;
    int in, out, process, status;

    if (argc < 4)
        return 2;
    in = open(argv[1], READ_ONLY);
    out = open(argv[2], WRITE_ANEW, 0666);
    if (in < 0 || out < 0)
        return 1;
    clock_gettime(MONOTONIC, &begin);
    process = fork();
    if (process == 0) {
        if (dup2(in, 0) == 0 && dup2(out, 1) == 1)
            execv(argv[3], argv + 3);
        _exit(127);
    }
    if (process < 0 || wait4(process, &status, 0, &usage) != process || status != 0)
        return 1;
    clock_gettime(MONOTONIC, &end);
    printf("%ld %ld %ld\n", microseconds(usage.user) + microseconds(usage.system),
           (end.seconds - begin.seconds) * 1000000 + (end.nanoseconds - begin.nanoseconds) / 1000, usage.peak);
    return fflush(0) != 0;
}
