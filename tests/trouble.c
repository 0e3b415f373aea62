/* read and write for tests/potcount_fails.sh, loaded before the C library's. On standard input and output two of three
   calls are interrupted before they move a byte, and the third moves seven bytes at most. With BREAKS_OFF in the
   environment the input has no end: reading fails there. */
#define _GNU_SOURCE
#include <errno.h>
#include <stdlib.h>
#include <sys/syscall.h>
#include <unistd.h>

static ssize_t some(long number, int fd, void *bytes, size_t count)
{
    static unsigned calls;
    if (fd == STDERR_FILENO) {
        return syscall(number, fd, bytes, count);
    }
    if (++calls % 3 != 0) {
        errno = EINTR;
        return -1;
    }
    return syscall(number, fd, bytes, count < 7 ? count : 7);
}

ssize_t read(int fd, void *bytes, size_t count)
{
    ssize_t got = some(SYS_read, fd, bytes, count);
    if (got == 0 && getenv("BREAKS_OFF")) {
        errno = EIO;
        return -1;
    }
    return got;
}

ssize_t write(int fd, const void *bytes, size_t count)
{
    return some(SYS_write, fd, (void *)bytes, count);
}
