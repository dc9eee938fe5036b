"""Runs of the built programs in which allocations are refused, by their numbers."""
import collections
import concurrent.futures
import contextlib
import os
import subprocess
import sys

from book_files import Wrong

HERE = os.path.dirname(os.path.realpath(__file__))
TOP = os.path.dirname(os.path.dirname(HERE))
PROGRAMS = {it: f"{TOP}/crates/{it}/out/{it}" for it in ("gi_dispatch", "gi_match", "gi_cases")}
SECONDS, WORKERS = 60, 2
# how each program ends for want of memory: its status, and its faults (of gi_cases also those of its words and of its input; gi_match
# says what gi_dispatch says)
ENDS = {
    "gi_dispatch": (4, [b"gi_dispatch: OutOfMemory\n"]),
    "gi_match": (4, [b"gi_dispatch: OutOfMemory\n"]),
    "gi_cases": (1, [b"gi_cases: OutOfMemory\n", b"gi_cases: NoSubject\n", b"gi_cases: Read\n"]),
}
# of `serve` also what a turn that saves wanted, or its book
OF_A_TURN = [b"gi_dispatch: Office OutOfMemory\n", b"gi_dispatch: Store OutOfMemory\n"]
# the last line of `serve`; where memory is wanted for it, all lines are there, and this one tells it
RECONCILED = b"reconciled ok\n"
# what came of a run: its status (None where it did not end), what it wrote, and whether the allocation was refused in it
Done = collections.namedtuple("Done", "status output errors is_told count")


class Refusing:
    """A library that refuses allocations, and a folder for what it tells."""

    def __init__(self, scratch, is_all):
        self.scratch, self.is_all = scratch, is_all
        self.library = f"{scratch}/refusing.so"
        compiled = [os.environ.get("CC", "gcc"), "-O2", "-shared", "-fPIC", "-o", self.library, f"{HERE}/refusing.c"]
        subprocess.run(compiled, check=True)

    def run(self, words, given, number, folder=None, is_last=True):
        """A run with these words and this file as its input, in which the allocation of this number is refused, and where it is not the
        last one all behind it too; 0 is none."""
        mark = f"{self.scratch}/{number} {os.path.basename(folder or '')}"
        env = dict(os.environ, LD_PRELOAD=self.library, REFUSED=str(number), TOLD=f"{mark} told", COUNTED=f"{mark} counted")
        if not is_last:
            env["LAST"] = str(1 << 60)
        with open(given, "rb") as standard_input:
            try:
                program = [PROGRAMS[words[0]], *words[1:]]
                done = subprocess.run(program, stdin=standard_input, capture_output=True, env=env, cwd=folder, timeout=SECONDS)
            except subprocess.TimeoutExpired:
                raise Wrong(f"allocation {number}: it did not end in {SECONDS} seconds") from None
        count = 0
        with contextlib.suppress(FileNotFoundError), open(f"{mark} counted", encoding="ascii") as counted:
            count = int(counted.read())
        is_told = os.path.exists(f"{mark} told")
        for name in ("told", "counted"):
            with contextlib.suppress(FileNotFoundError):
                os.remove(f"{mark} {name}")
        return Done(done.returncode, done.stdout, done.stderr, is_told, count)

    def numbers(self, count, most):
        """The numbers to refuse of so many: all, or evenly some where they are more than `most`."""
        if not count:
            raise Wrong("it asks for no memory, or the library is not there")
        return range(1, count + 1, 1 if self.is_all else max(1, -(-count // most)))

    def each(self, numbers, one):
        """How many of these refusals came to what: `one` says it of a number, and is made for two numbers at a time."""
        counts = collections.Counter()
        with concurrent.futures.ThreadPoolExecutor(WORKERS) as pool:
            for what in pool.map(one, numbers):
                counts[what] += 1
        return counts


def all_reached(counts, has_threads):
    """Each allocation was asked for again; of several threads, all but a quarter."""
    of = sum(counts.values()) if has_threads else 0
    if 4 * counts["not reached"] > of:
        raise Wrong(f"{counts['not reached']} allocations were not asked for again")


def is_front(written, whole, last):
    """Whether these are the lines of first steps, each with all of its own; `last` lines tell no step and end the whole. None
    stands for a command that writes all at once or nothing."""
    if last is None:
        return written == b""
    if written == whole.removesuffix(RECONCILED) + b"reconciled OutOfMemory\n":
        return True
    steps = b"".join(whole.splitlines(True)[:-last])
    rest = steps[len(written) :]
    return steps.startswith(written) and (written == b"" or written.endswith(b"\n")) and not rest.startswith(b"  ")


def ended(words, number, done, whole, last):
    """What a run came to in which an allocation was refused: told, or done without."""
    if (done.status, done.output, done.errors) == (whole.status, whole.output, whole.errors):
        return "done without" if done.is_told else "not reached"
    status, faults = ENDS[words[0]]
    faults = faults + (OF_A_TURN if words[1] == "serve" else [])
    if not done.is_told:
        raise Wrong(f"allocation {number}: nothing was refused, and it ended otherwise")
    # (books are closed once the run is over: all is written then)
    is_closing = words[1:2] == ["serve"] and "--books" in words and done.output == whole.output
    if done.status != status or done.errors not in faults or not (is_closing or is_front(done.output, whole.output, last)):
        raise Wrong(f"allocation {number}: status {done.status}, {done.errors!r}, {len(done.output)} bytes written")
    return "told"


def whole_run(refusing, words, given, folder=None):
    """The run that is refused nothing."""
    whole = refusing.run(words, given, 0, folder)
    if whole.status or whole.errors:
        raise Wrong(f"status {whole.status} with all memory, {whole.errors!r}")
    return whole


def said(counts, of):
    """The counts in words."""
    sum_of_all = sum(it for what, it in counts.items() if what != "not reached")
    return f"{sum_of_all} of {of} refused: " + ", ".join(f"{counts[what]} {what}" for what in sorted(counts) if counts[what])
