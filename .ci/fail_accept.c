// If this library is preloaded into a server, its first calls to accept a connection fail: one for each number in FAILED_ACCEPTS, with that number as
// errno. All later calls are passed on.
#define _GNU_SOURCE
#include <dlfcn.h>
#include <errno.h>
#include <stdlib.h>
#include <sys/socket.h>

int accept4(int socket, struct sockaddr *address, socklen_t *length, int flags)
{
    static char *failures;
    static int (*next)(int, struct sockaddr *, socklen_t *, int);
    if (!next) {
        next = (int (*)(int, struct sockaddr *, socklen_t *, int))dlsym(RTLD_NEXT, "accept4");
        failures = getenv("FAILED_ACCEPTS");
    }
    char *rest = failures;
    long number = failures ? strtol(failures, &rest, 10) : 0;
    if (rest == failures) {
        return next(socket, address, length, flags);
    }
    failures = rest;
    errno = (int)number;
    return -1;
}
