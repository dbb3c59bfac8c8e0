// Runs a command, and writes its wait status, its processor seconds and the peak of its memory in KB to the open file whose number is the first argument.
// This program is small on purpose: the peak of a command that Python starts includes Python's own memory, since it counts the memory that the process
// had before the command was loaded.
#include <stdio.h>
#include <stdlib.h>
#include <sys/resource.h>
#include <sys/wait.h>
#include <unistd.h>

static double seconds(struct timeval time)
{
    return (double)time.tv_sec + (double)time.tv_usec / 1e6;
}

int main(int count, char **words)
{
    if (count < 3) {
        return 64;
    }
    int out = atoi(words[1]);
    pid_t child = fork();
    if (child == 0) {
        close(out);
        execv(words[2], words + 2);
        _exit(127);
    }
    int status = 0;
    struct rusage used;
    if (child < 0 || wait4(child, &status, 0, &used) != child) {
        return 70;
    }
    dprintf(out, "%d %.6f %ld\n", status, seconds(used.ru_utime) + seconds(used.ru_stime), used.ru_maxrss);
    return 0;
}
