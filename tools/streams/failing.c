// failing.c: loaded into a program (LD_PRELOAD), has one of its reads of standard input or of its writes to standard output fail.
// By the variables
//   READ, WRITE   the number of that call, from 1
//   MOST          a call moves no more than so many bytes
//   TOLD          a file that is there once that call was made
#include <errno.h>
#include <fcntl.h>
#include <stdatomic.h>
#include <stdlib.h>
#include <sys/syscall.h>
#include <sys/uio.h>
#include <unistd.h>

static atomic_long reads, writes;

static long number_of(const char *name) {
    const char *number = getenv(name);
    return number ? atol(number) : 0;
}

static size_t least(size_t size) {
    size_t most = number_of("MOST");
    return most > 0 && most < size ? most : size;
}

static int fails(atomic_long *made, const char *name) {
    if (atomic_fetch_add(made, 1) + 1 != number_of(name)) {
        return 0;
    }
    syscall(SYS_close, syscall(SYS_openat, AT_FDCWD, getenv("TOLD"), O_CREAT | O_WRONLY, 0600));
    errno = EIO;
    return 1;
}

ssize_t read(int file, void *bytes, size_t size) {
    if (file != STDIN_FILENO || size == 0) {
        return syscall(SYS_read, file, bytes, size);
    }
    return fails(&reads, "READ") ? -1 : syscall(SYS_read, file, bytes, least(size));
}

ssize_t write(int file, const void *bytes, size_t size) {
    if (file != STDOUT_FILENO || size == 0) {
        return syscall(SYS_write, file, bytes, size);
    }
    return fails(&writes, "WRITE") ? -1 : syscall(SYS_write, file, bytes, least(size));
}

ssize_t writev(int file, const struct iovec *parts, int count) {
    if (file != STDOUT_FILENO || count == 0) {
        return syscall(SYS_writev, file, parts, count);
    }
    return write(file, parts[0].iov_base, parts[0].iov_len);
}
