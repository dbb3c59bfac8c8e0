// For deploy/try and deploy/try_nightly: if this library is preloaded, a program reads the time of day, in seconds after 1970-01-01T00:00:00Z, from
// the file that CLOCK names, and takes SLOW_SECONDS to open the file that SLOW_FILE names, as from a slow disk. Other clocks and files are unchanged.
#define _GNU_SOURCE
#include <fcntl.h>
#include <stdarg.h>
#include <stdio.h>
#include <stdlib.h>
#include <string.h>
#include <sys/syscall.h>
#include <time.h>
#include <unistd.h>

int clock_gettime(clockid_t clock, struct timespec *now)
{
    const char *path = getenv("CLOCK");
    FILE *file = clock == CLOCK_REALTIME && path != NULL ? fopen(path, "r") : NULL;
    long long seconds;
    if (file == NULL)
        return (int)syscall(SYS_clock_gettime, clock, now);
    int read = fscanf(file, "%lld", &seconds);
    fclose(file);
    if (read != 1)
        return (int)syscall(SYS_clock_gettime, clock, now);
    now->tv_sec = (time_t)seconds;
    now->tv_nsec = 0;
    return 0;
}

static int open_at(int folder, const char *path, int flags, mode_t mode)
{
    const char *slow = getenv("SLOW_FILE"), *seconds = getenv("SLOW_SECONDS");
    if (slow != NULL && seconds != NULL && strcmp(path, slow) == 0)
        sleep((unsigned)atoi(seconds));
    return (int)syscall(SYS_openat, folder, path, flags, mode);
}

// a third argument that wasn't given has no meaning without O_CREAT
#define MODE(last) ({ va_list rest; va_start(rest, last); mode_t mode = va_arg(rest, mode_t); va_end(rest); mode; })

int open(const char *path, int flags, ...)
{
    return open_at(AT_FDCWD, path, flags, MODE(flags));
}

int openat(int folder, const char *path, int flags, ...)
{
    return open_at(folder, path, flags, MODE(flags));
}
