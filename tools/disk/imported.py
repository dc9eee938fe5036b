"""The calls of the C library that the built program imports: each one on files is broken by breaking.c, or it is said here why not."""
import re
import subprocess

from book_files import Wrong
from breaking import PROGRAM

# on files, and not broken, each for this reason
UNBROKEN = {
    "close": "what it could tell was told by the last sync of the file, and no answer of it is looked at",
    "lseek": "it moves no bytes",
    "flock": "a book is locked by fcntl, and no run here makes this call",
    "getcwd": "it is of no file",
    "isatty": "it is asked of the standard streams alone",
    "syscall": "by it threads wait and are woken: no run here makes another call by its number",
    "__write": "it is the line on standard error of a processor that is too old",
}
# memory, texts, threads, time, the process itself: on no file
OTHERS = re.compile(
    r"malloc|calloc|realloc|free|aligned_alloc|posix_memalign|mem(cpy|move|set|cmp|chr)|bcmp|str\w+|pthread_\w+|sched_\w+|sem_\w+"
    r"|clock_\w+|nanosleep|getentropy|time|getpid|getenv|_?_?environ|sysconf|prctl|abort|_?exit|signal|__sysv_signal|sig\w+"
    r"|_ITM_\w+|__gmon_start__|__cxa_\w+|__libc_start_main|__errno_location|__tls_get_addr|__x86_\w+|__xpg_strerror_r|__stack_chk_fail"
)


def names_of(file, which):
    """The names that a program or a library takes of others, or has for them."""
    said = subprocess.run(["nm", "-D", which, file], capture_output=True, text=True, check=True).stdout
    return {line.split()[-1].partition("@")[0] for line in said.splitlines()}


def all_known(library):
    """No call of the program is one of which nothing is known."""
    left = names_of(PROGRAM, "--undefined-only") - names_of(library, "--defined-only") - set(UNBROKEN)
    unknown = sorted(it for it in left if not OTHERS.fullmatch(it))
    if unknown:
        raise Wrong(f"the program imports calls that may be on files: {' '.join(unknown)}")
