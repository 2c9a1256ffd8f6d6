/* Loaded before the C library (LD_PRELOAD): every second write to standard output is interrupted, the others take a part; where FAULTY_SYNC is set, synchronizing a file fails. */
#include <errno.h>
#include <stdlib.h>
#include <sys/syscall.h>
#include <sys/types.h>
#include <unistd.h>

ssize_t write(int fd, const void *bytes, size_t count)
{
    static int calls;

    if (fd == STDOUT_FILENO && calls++ % 2 == 0) {
        errno = EINTR;
        return -1;
    }
    return syscall(SYS_write, fd, bytes, count < 50000 ? count : 50000);
}

int fdatasync(int fd)
{
    if (getenv("FAULTY_SYNC") != NULL) {
        errno = EIO;
        return -1;
    }
    return syscall(SYS_fdatasync, fd);
}
