// refusing.c: loaded into a program (LD_PRELOAD), refuses one of its allocations: the one whose number, from 1, is in the
// variable REFUSED; or all from it to the number in the variable LAST. Once one is refused the file that the variable TOLD names
// is there. Where the program ends (by _exit), the file that the variable COUNTED names, if any, has how many were asked for.
#include <errno.h>
#include <fcntl.h>
#include <stdatomic.h>
#include <stdio.h>
#include <stdlib.h>
#include <sys/syscall.h>
#include <unistd.h>

extern void *__libc_malloc(size_t);
extern void *__libc_calloc(size_t, size_t);
extern void *__libc_realloc(void *, size_t);
extern void *__libc_memalign(size_t, size_t);

static atomic_long made;

static int refused(void) {
    const char *first = getenv("REFUSED"), *last = getenv("LAST");
    if (!first) {
        return 0;
    }
    long number = atomic_fetch_add(&made, 1) + 1, from = atol(first);
    if (number < from || number > (last ? atol(last) : from)) {
        return 0;
    }
    close(open(getenv("TOLD"), O_CREAT | O_WRONLY, 0600));
    errno = ENOMEM;
    return 1;
}

void _exit(int status) {
    const char *name = getenv("COUNTED");
    if (name) {
        char text[24];
        int size = snprintf(text, sizeof text, "%ld", made), file = open(name, O_CREAT | O_TRUNC | O_WRONLY, 0600);
        if (write(file, text, size) != size) {
            status = 99;
        }
    }
    syscall(SYS_exit_group, status);
    __builtin_unreachable();
}

void *malloc(size_t size) {
    return refused() ? NULL : __libc_malloc(size);
}

void *calloc(size_t count, size_t size) {
    return refused() ? NULL : __libc_calloc(count, size);
}

void *realloc(void *old, size_t size) {
    return refused() ? NULL : __libc_realloc(old, size);
}

void *aligned_alloc(size_t alignment, size_t size) {
    return refused() ? NULL : __libc_memalign(alignment, size);
}

int posix_memalign(void **place, size_t alignment, size_t size) {
    if (refused()) {
        return ENOMEM;
    }
    *place = __libc_memalign(alignment, size);
    return *place ? 0 : ENOMEM;
}
