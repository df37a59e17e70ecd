/* Stands before calls of the C library (LD_PRELOAD). A read or a write moves three octets at most, and FAILS says which
   call fails, or what else is so, in the environment:
   `read N`   the read of standard input of this number, from 1 on
   `write N`  the write to standard output
   `tell N`   the write to standard error
   `file N`   the read of a file whose name begins with `broken`
   `room N`   the write to a trace whose name begins with `full`, or to a draft
   `port`     each that binds a socket
   `clock`    each that reads a clock
   `drip`     none, but a read of standard input brings one octet */
#define _GNU_SOURCE
#include <dlfcn.h>
#include <errno.h>
#include <limits.h>
#include <stdio.h>
#include <stdlib.h>
#include <string.h>
#include <sys/socket.h>
#include <sys/syscall.h>
#include <sys/types.h>
#include <time.h>
#include <unistd.h>

enum { MOST = 3 };

/* Whether the last name in the path of an open file begins so. */
static int is_named(int file, const char *front)
{
    char link[64], path[PATH_MAX];
    snprintf(link, sizeof link, "/proc/self/fd/%d", file);
    ssize_t size = readlink(link, path, sizeof path - 1);
    path[size < 0 ? 0 : size] = 0;
    const char *last = strrchr(path, '/');
    return last && !strncmp(last + 1, front, strlen(front));
}

/* Whether it is one that the rows write: a trace, or a draft, whose name begins with that of the program. */
static int is_written(int file)
{
    return is_named(file, "full") || is_named(file, "zmeta-");
}

/* Counts a call of this kind, and returns whether FAILS says it. */
static int is_said(const char *kind)
{
    static long made;
    const char *said = getenv("FAILS");
    size_t size = strlen(kind);
    if (!said || strncmp(said, kind, size) || said[size] > ' ') return 0;
    return !said[size] || ++made == atol(said + size);
}

ssize_t read(int file, void *octets, size_t size)
{
    static ssize_t (*real)(int, void *, size_t);
    if (!real) real = (ssize_t (*)(int, void *, size_t))dlsym(RTLD_NEXT, "read");
    if (file == 0 ? is_said("read") : is_named(file, "broken") && is_said("file")) return errno = EIO, -1;
    size_t most = file == 0 && is_said("drip") ? 1 : MOST;
    return real(file, octets, size > most ? most : size);
}

ssize_t write(int file, const void *octets, size_t size)
{
    static ssize_t (*real)(int, const void *, size_t);
    if (!real) real = (ssize_t (*)(int, const void *, size_t))dlsym(RTLD_NEXT, "write");
    if (file == 1 ? is_said("write") : file == 2 ? is_said("tell") : is_written(file) && is_said("room"))
        return errno = ENOSPC, -1;
    return real(file, octets, size > MOST ? MOST : size);
}

int bind(int file, const struct sockaddr *address, socklen_t size)
{
    static int (*real)(int, const struct sockaddr *, socklen_t);
    if (!real) real = (int (*)(int, const struct sockaddr *, socklen_t))dlsym(RTLD_NEXT, "bind");
    if (is_said("port")) return errno = EADDRINUSE, -1;
    return real(file, address, size);
}

int clock_gettime(clockid_t clock, struct timespec *time)
{
    if (is_said("clock")) return errno = EINVAL, -1;
    return (int)syscall(SYS_clock_gettime, clock, time);
}
