// breaking.c: loaded into a program (LD_PRELOAD), breaks one of its calls on the files of a folder. By the variables
//   FOLDER   that folder, by its real name
//   NOTED    a file that gets a line for each call: its number among those on its file, what it is, how many bytes, and the file
//   FILE     the file, by its name in the folder; '.' is the folder itself
//   NUMBER   the number of the call on it, from 1
//   WAY      what comes of that call:
//     EIO, ENOSPC              it fails by that and does nothing
//     all_EIO, all_ENOSPC      so do all behind it, on whichever file; ENOSPC of those that take room
//     filled                   a write moves half of its bytes, and the next one to that file fails by ENOSPC
//     torn                     a write moves half of its bytes and fails by EIO
//     short                    half of the bytes are moved, which is told
//     before, halfway, after   SIGKILL comes before it, in the midst of the bytes that it writes, or after it
//   TOLD     a file that gets that call's line
//   SYNCED   a folder for what is on the disk: the bytes that a file had at its last sync, under its inode's number, and in the file
//            `names` the inode and the name of what was in the folder at its own last sync
#define _GNU_SOURCE
#include <dirent.h>
#include <dlfcn.h>
#include <errno.h>
#include <fcntl.h>
#include <limits.h>
#include <signal.h>
#include <stdarg.h>
#include <stdatomic.h>
#include <stdbool.h>
#include <stdio.h>
#include <stdlib.h>
#include <string.h>
#include <sys/stat.h>
#include <sys/syscall.h>
#include <sys/uio.h>
#include <unistd.h>

static const char *const WAYS[] = {"", "EIO", "ENOSPC", "all_EIO", "all_ENOSPC", "filled", "torn", "short", "before", "halfway", "after"};
enum way { GOES, FAILS, IS_FULL, ALL_FAIL, ALL_ARE_FULL, FILLED, TORN, SHORT, BEFORE, HALFWAY, AFTER, WAY_COUNT };

static const char *folder, *noted, *wanted, *told, *synced;
static long number;
static enum way way;

// whether the call was made, and whether the write behind it is still to fail
static atomic_bool is_broken, is_filled;
#define MOST_FILES 64
static struct { char name[64]; atomic_long calls; } files[MOST_FILES];
static atomic_flag adding = ATOMIC_FLAG_INIT;
static __thread char place[2 * PATH_MAX];

__attribute__((constructor)) static void begin(void) {
    const char *its_number = getenv("NUMBER"), *its_way = getenv("WAY");
    folder = getenv("FOLDER");
    noted = getenv("NOTED");
    wanted = getenv("FILE");
    told = getenv("TOLD");
    synced = getenv("SYNCED");
    number = its_number ? atol(its_number) : 0;
    for (way = WAY_COUNT - 1; way > GOES && strcmp(its_way ? its_way : "", WAYS[way]); way--) {
    }
}

static void die(void) {
    syscall(SYS_kill, getpid(), SIGKILL);
    __builtin_unreachable();
}

static void tell(const char *name, const char *line, size_t size) {
    int file = name ? syscall(SYS_openat, AT_FDCWD, name, O_CREAT | O_WRONLY | O_APPEND, 0600) : -1;
    if (file >= 0) {
        syscall(SYS_write, file, line, size);
        syscall(SYS_close, file);
    }
}

// the name in the folder of what stands at this path; NULL where it is elsewhere
static const char *in_folder(const char *path) {
    size_t size = folder ? strlen(folder) : 0;
    if (!size || strncmp(path, folder, size) || (path[size] && path[size] != '/')) {
        return NULL;
    }
    return path[size] && path[size + 1] ? path + size + 1 : ".";
}

static const char *of_file(int file) {
    char link[32];
    snprintf(link, sizeof link, "/proc/self/fd/%d", file);
    ssize_t size = syscall(SYS_readlinkat, AT_FDCWD, link, place, PATH_MAX);
    if (size <= 0) {
        return NULL;
    }
    place[size] = 0;
    return in_folder(place);
}

static const char *of_path(int at, const char *path) {
    if (path[0] == '/') {
        return in_folder(path);
    }
    if (!path[0]) {
        return of_file(at);
    }
    if (at == AT_FDCWD) {
        if (!getcwd(place, PATH_MAX)) {
            return NULL;
        }
    } else if (!of_file(at)) {
        return NULL;
    }
    snprintf(place + strlen(place), PATH_MAX, "/%s", path);
    return in_folder(place);
}

// the number of this call among those on its file
static long counted(const char *name) {
    int at = 0;
    while (atomic_flag_test_and_set(&adding)) {
    }
    while (at < MOST_FILES - 1 && files[at].name[0] && strcmp(files[at].name, name)) {
        at++;
    }
    snprintf(files[at].name, sizeof files[at].name, "%s", name);
    atomic_flag_clear(&adding);
    return atomic_fetch_add(&files[at].calls, 1) + 1;
}

static enum way fails(int why) {
    errno = why;
    return FAILS;
}

// what comes of a call on this file (NULL: none of the folder's)
static enum way comes_of(const char *file, const char *call, size_t size, bool takes_room) {
    char line[256];
    if (!file) {
        return GOES;
    }
    long its_number = counted(file);
    int length = snprintf(line, sizeof line, "%ld %s %zu %s\n", its_number, call, size, file);
    tell(noted, line, length);
    if (is_broken) {
        bool is_next = way == FILLED && size && takes_room && !strcmp(file, wanted) && atomic_exchange(&is_filled, false);
        return way == ALL_FAIL ? fails(EIO) : is_next || (way == ALL_ARE_FULL && takes_room) ? fails(ENOSPC) : GOES;
    }
    if (way == GOES || its_number != number || strcmp(file, wanted) || atomic_exchange(&is_broken, true)) {
        return GOES;
    }
    tell(told, line, length);
    // (which call has a number hangs on the threads: one that moves no bytes may have it, of which there is no half)
    bool halves = way == FILLED || way == TORN || way == SHORT || way == HALFWAY;
    if (halves && (size < 2 || (way != SHORT && !takes_room))) {
        return GOES;
    }
    is_filled = way == FILLED;
    if (way == BEFORE) {
        die();
    }
    return way == FAILS || way == ALL_FAIL ? fails(EIO) : way == IS_FULL || way == ALL_ARE_FULL ? fails(ENOSPC) : way;
}

// a call that moves no bytes
#define MADE(FILE, CALL, TAKES_ROOM, MAKE)               \
    enum way its = comes_of(FILE, CALL, 0, TAKES_ROOM);  \
    if (its == FAILS) {                                  \
        return -1;                                       \
    }                                                    \
    int answer = MAKE;                                   \
    if (its == AFTER) {                                  \
        die();                                           \
    }                                                    \
    return answer;

static ssize_t moved(int file, const char *call, long by, void *bytes, size_t size, off_t at) {
    enum way its = comes_of(of_file(file), call, size, by == SYS_write || by == SYS_pwrite64);
    bool is_half = its == FILLED || its == TORN || its == SHORT || its == HALFWAY;
    if (its == FAILS) {
        return -1;
    }
    ssize_t answer = syscall(by, file, bytes, is_half ? (size + 1) / 2 : size, at);
    if (its == HALFWAY || its == AFTER) {
        die();
    }
    if (its == TORN) {
        errno = EIO;
        return -1;
    }
    return answer;
}

ssize_t write(int file, const void *bytes, size_t size) {
    return moved(file, "write", SYS_write, (void *)bytes, size, 0);
}

ssize_t pwrite(int file, const void *bytes, size_t size, off_t at) {
    return moved(file, "pwrite", SYS_pwrite64, (void *)bytes, size, at);
}

ssize_t pwrite64(int file, const void *bytes, size_t size, off_t at) {
    return moved(file, "pwrite", SYS_pwrite64, (void *)bytes, size, at);
}

// (the first part alone: a caller has to make what is left undone)
ssize_t writev(int file, const struct iovec *parts, int count) {
    if (count <= 0 || !of_file(file)) {
        return syscall(SYS_writev, file, parts, count);
    }
    return moved(file, "writev", SYS_write, parts[0].iov_base, parts[0].iov_len, 0);
}

ssize_t read(int file, void *bytes, size_t size) {
    return moved(file, "read", SYS_read, bytes, size, 0);
}

ssize_t pread(int file, void *bytes, size_t size, off_t at) {
    return moved(file, "pread", SYS_pread64, bytes, size, at);
}

ssize_t pread64(int file, void *bytes, size_t size, off_t at) {
    return moved(file, "pread", SYS_pread64, bytes, size, at);
}

static int opened(int at, const char *path, int flags, mode_t mode) {
    MADE(of_path(at, path), flags & O_CREAT ? "open_to_make" : "open", flags & O_CREAT, syscall(SYS_openat, at, path, flags, mode))
}

static bool has_mode(int flags) {
    return flags & O_CREAT || (flags & O_TMPFILE) == O_TMPFILE;
}

// calls of open and of openat, by both of their names
#define OPENS(NAME, AT, ...)                                           \
    int NAME(__VA_ARGS__, int flags, ...) {                            \
        va_list rest;                                                  \
        va_start(rest, flags);                                         \
        mode_t mode = has_mode(flags) ? va_arg(rest, unsigned int) : 0; \
        va_end(rest);                                                  \
        return opened(AT, path, flags, mode);                          \
    }
OPENS(open, AT_FDCWD, const char *path)
OPENS(open64, AT_FDCWD, const char *path)
OPENS(openat, at, int at, const char *path)
OPENS(openat64, at, int at, const char *path)

static void keep_names(int to) {
    char line[512];
    DIR *found = opendir(folder);
    for (struct dirent *it; found && (it = readdir(found));) {
        if (it->d_name[0] != '.') {
            syscall(SYS_write, to, line, snprintf(line, sizeof line, "%lu %s\n", (unsigned long)it->d_ino, it->d_name));
        }
    }
    closedir(found);
}

static void keep_bytes(int file, int to) {
    char bytes[65536];
    for (long at = 0, size; (size = syscall(SYS_pread64, file, bytes, sizeof bytes, at)) > 0; at += size) {
        syscall(SYS_write, to, bytes, size);
    }
}

// what is on the disk from now on: by a new file, since another call may kill the program meanwhile
static void keep(int file) {
    char name[PATH_MAX], anew[PATH_MAX + 8];
    struct stat it;
    if (!synced || !of_file(file) || fstat(file, &it)) {
        return;
    }
    bool is_folder = S_ISDIR(it.st_mode);
    if (is_folder) {
        snprintf(name, sizeof name, "%s/names", synced);
    } else {
        snprintf(name, sizeof name, "%s/%lu", synced, (unsigned long)it.st_ino);
    }
    snprintf(anew, sizeof anew, "%s.%ld", name, syscall(SYS_gettid));
    int to = syscall(SYS_openat, AT_FDCWD, anew, O_CREAT | O_WRONLY | O_TRUNC, 0600);
    if (is_folder) {
        keep_names(to);
    } else {
        keep_bytes(file, to);
    }
    syscall(SYS_close, to);
    syscall(SYS_renameat2, AT_FDCWD, anew, AT_FDCWD, name, 0);
}

static int synced_by(int file, long by) {
    int answer = syscall(by, file);
    if (!answer) {
        keep(file);
    }
    return answer;
}

int fsync(int file) {
    MADE(of_file(file), "fsync", true, synced_by(file, SYS_fsync))
}

int fdatasync(int file) {
    MADE(of_file(file), "fdatasync", true, synced_by(file, SYS_fdatasync))
}

int ftruncate(int file, off_t size) {
    MADE(of_file(file), "ftruncate", true, syscall(SYS_ftruncate, file, size))
}

int ftruncate64(int file, off_t size) {
    MADE(of_file(file), "ftruncate", true, syscall(SYS_ftruncate, file, size))
}

int fallocate(int file, int mode, off_t at, off_t size) {
    MADE(of_file(file), "fallocate", true, syscall(SYS_fallocate, file, mode, at, size))
}

int fchmod(int file, mode_t mode) {
    MADE(of_file(file), "fchmod", false, syscall(SYS_fchmod, file, mode))
}

int fchown(int file, uid_t owner, gid_t group) {
    MADE(of_file(file), "fchown", false, syscall(SYS_fchown, file, owner, group))
}

int rename(const char *from, const char *to) {
    MADE(of_path(AT_FDCWD, from), "rename", true, syscall(SYS_renameat2, AT_FDCWD, from, AT_FDCWD, to, 0))
}

int renameat(int from_at, const char *from, int to_at, const char *to) {
    MADE(of_path(from_at, from), "rename", true, syscall(SYS_renameat2, from_at, from, to_at, to, 0))
}

int unlink(const char *path) {
    MADE(of_path(AT_FDCWD, path), "unlink", false, syscall(SYS_unlinkat, AT_FDCWD, path, 0))
}

int unlinkat(int at, const char *path, int flags) {
    MADE(of_path(at, path), "unlink", false, syscall(SYS_unlinkat, at, path, flags))
}

int access(const char *path, int mode) {
    MADE(of_path(AT_FDCWD, path), "access", false, syscall(SYS_faccessat, AT_FDCWD, path, mode))
}

int statx(int at, const char *path, int flags, unsigned int mask, struct statx *found) {
    MADE(of_path(at, path), "statx", false, syscall(SYS_statx, at, path, flags, mask, found))
}

// (of these the locks alone)
static int controlled(int file, int command, void *rest) {
    bool locks = command == F_SETLK || command == F_SETLKW || command == F_OFD_SETLK || command == F_OFD_SETLKW;
    if (!locks) {
        return syscall(SYS_fcntl, file, command, rest);
    }
    MADE(of_file(file), "lock", false, syscall(SYS_fcntl, file, command, rest))
}

#define CONTROLS(NAME)                           \
    int NAME(int file, int command, ...) {       \
        va_list rest;                            \
        va_start(rest, command);                 \
        void *its_rest = va_arg(rest, void *);   \
        va_end(rest);                            \
        return controlled(file, command, its_rest); \
    }
CONTROLS(fcntl)
CONTROLS(fcntl64)

int posix_fadvise(int file, off_t at, off_t size, int advice) {
    if (comes_of(of_file(file), "fadvise", 0, false) == FAILS) {
        return errno;
    }
    return syscall(SYS_fadvise64, file, at, size, advice) ? errno : 0;
}

char *realpath(const char *path, char *resolved) {
    static char *(*real)(const char *, char *);
    if (comes_of(of_path(AT_FDCWD, path), "realpath", 0, false) == FAILS) {
        return NULL;
    }
    if (!real) {
        // (the one of the oldest version would refuse a NULL)
        real = (char *(*)(const char *, char *))dlvsym(RTLD_NEXT, "realpath", "GLIBC_2.3");
        real = real ? real : (char *(*)(const char *, char *))dlsym(RTLD_NEXT, "realpath");
    }
    return real(path, resolved);
}
