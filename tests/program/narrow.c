/* Stands before the C library's `write` (LD_PRELOAD): standard output takes 16 octets at a time. */
#define _GNU_SOURCE
#include <dlfcn.h>
#include <sys/types.h>
#include <unistd.h>

ssize_t write(int file, const void *octets, size_t size)
{
    static ssize_t (*real)(int, const void *, size_t);
    if (!real) real = (ssize_t (*)(int, const void *, size_t))dlsym(RTLD_NEXT, "write");
    return real(file, octets, file == 1 && size > 16 ? 16 : size);
}
