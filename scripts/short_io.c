/*
 * Loaded before the program (LD_PRELOAD): reads of standard input and writes of standard output move at most 100 bytes at a time, and call number
 * FAIL_READ or FAIL_WRITE, counted from 1, fails.
 */
#define _GNU_SOURCE
#include <errno.h>
#include <stdlib.h>
#include <sys/syscall.h>
#include <unistd.h>

static size_t part(const char *name, int *calls, size_t size)
{
    const char *fails = getenv(name);
    *calls += 1;
    if (fails && atoi(fails) == *calls)
        return (size_t)-1;
    return size < 100 ? size : 100;
}

ssize_t read(int fd, void *buffer, size_t size)
{
    static int calls;
    if (fd == 0 && (size = part("FAIL_READ", &calls, size)) == (size_t)-1) {
        errno = EIO;
        return -1;
    }
    return syscall(SYS_read, fd, buffer, size);
}

ssize_t write(int fd, const void *buffer, size_t size)
{
    static int calls;
    if (fd == 1 && (size = part("FAIL_WRITE", &calls, size)) == (size_t)-1) {
        errno = EIO;
        return -1;
    }
    return syscall(SYS_write, fd, buffer, size);
}
