// reading.c: loaded into a program (LD_PRELOAD), has its standard input read as it is seldom read. By the variables
//   INTERRUPTED   the first so many reads are interrupted
//   DRIPS         each byte is given alone, after a read that is interrupted
//   FAILS         where the input ends, the read fails
#include <errno.h>
#include <stdbool.h>
#include <stdlib.h>
#include <sys/syscall.h>
#include <unistd.h>

static long interrupted;
static bool drips, fails, gives = true;

__attribute__((constructor)) static void begin(void) {
    const char *number = getenv("INTERRUPTED");
    interrupted = number ? atol(number) : 0;
    drips = getenv("DRIPS");
    fails = getenv("FAILS");
}

static ssize_t failed(int why) {
    errno = why;
    return -1;
}

static bool is_interrupted(void) {
    if (interrupted > 0) {
        interrupted--;
        return true;
    }
    gives = !drips || !gives;
    return !gives;
}

ssize_t read(int file, void *bytes, size_t size) {
    if (file != STDIN_FILENO || size == 0) {
        return syscall(SYS_read, file, bytes, size);
    }
    if (is_interrupted()) {
        return failed(EINTR);
    }
    ssize_t count = syscall(SYS_read, file, bytes, drips ? 1 : size);
    return count == 0 && fails ? failed(EPIPE) : count;
}
