"""What the tools here take of the Rattle kit's own scripts, its command rt and the module rtlib below it: the repository's crates,
their libraries and the words of a check. And the sum of all that a verdict on a crate stands on."""
import contextlib
import functools
import hashlib
import importlib.machinery
import importlib.util
import os
import re
import shutil
import sys
import tempfile
import time
from concurrent.futures import FIRST_COMPLETED, ThreadPoolExecutor, wait

TOP = os.path.dirname(os.path.dirname(os.path.realpath(__file__)))


def load():
    """The kit's command rt as a module."""
    command = shutil.which("rt")
    if not command:
        sys.exit("the Rattle kit's command rt is not on this machine")
    sys.dont_write_bytecode = True
    loader = importlib.machinery.SourceFileLoader("rt", os.path.realpath(command))
    module = importlib.util.module_from_spec(importlib.util.spec_from_loader("rt", loader))
    sys.modules["rt"] = module
    loader.exec_module(module)
    return module


rt = load()
rtlib = rt.rtlib


@functools.cache
def sum_of_kit():
    """A sum of the kit: rt's own, of all files that a check reads, where this kit has one, else of its name."""
    return rt.kit_sum() if hasattr(rt, "kit_sum") else rtlib.sum_of(f"{rtlib.KIT}/KIT-ID")


@functools.cache
def logic_of_kit():
    """The kit's number and logic without the letter by which builds of one number differ: `rattle-kit-13 logic dac8..`."""
    return re.sub(r"(?<=kit-)(\d+)[a-z]+\b", r"\1", rtlib.text_of(f"{rtlib.KIT}/KIT-ID").strip())


def stamp_of(crate):
    """A sum of all that a verdict on the crate stands on: the kit, and the files and libraries of the crate and of those below."""
    whole = [*crate.below(), crate]
    libraries = [(it.name, it.of_kit, [dep.name for dep in it.deps]) for it in whole]
    files = [(it.name, os.path.relpath(file, it.folder), rtlib.sum_of(file)) for it in whole for file in rtlib.files_of(it.folder)]
    return hashlib.sha256(repr((sum_of_kit(), libraries, files)).encode()).hexdigest()


def crates():
    """The repository's crates by their names, lowest first."""
    found = rtlib.crates_below(TOP)
    return {it.name: it for it in sorted(found, key=lambda it: len(it.below()))}


def processors():
    """How many processors this process may use: a container can have a part of those that it sees."""
    quota = re.match(r"(\d+) (\d+)", rtlib.text_of("/sys/fs/cgroup/cpu.max") or "")
    most = len(os.sched_getaffinity(0))
    return max(1, min(most, round(int(quota[1]) / int(quota[2])))) if quota else most


def free():
    """The free memory in bytes, under a container's limit too where this kit tells that."""
    return rt.free() if hasattr(rt, "free") else 1024 * rtlib.number_in("/proc/meminfo", r"MemAvailable:\s+(\d+)")


# So much memory, in bytes, no check of one job here has taken.
MOST_OF_ONE = 5_000_000_000


def lanes():
    """How many crates an rt ci can prove side by side with one job each, where there is the memory for that many of the largest; else 0."""
    count = processors()
    return count if count * MOST_OF_ONE < free() else 0


def need(crate, jobs):
    """About the most memory that a check of the crate takes, in bytes."""
    return need_of_one(crate) * (1 + 0.3 * (jobs - 1))


@functools.cache
def need_of_one(crate):
    """What one job needs: half of rt's own estimate, which no check here came near."""
    own = sum(rtlib.text_of(it).count("\n") for it in rtlib.files_of(crate.folder) if it.endswith(".antt"))
    named = {name for it in [crate, *crate.below()] for name in it.of_kit} - {*rtlib.SEALED, "io", "libc", "os"}
    files = [f"{rtlib.KIT}/rlibs/{it}.rlib/toolchain/checked.a" for it in named]
    loaded = sum(os.path.getsize(it) for it in files if os.path.isfile(it))
    below = sum(it.count(rb"\n") for it in crate.below())
    whole = 1_000_000_000 + 1_000_000 * crate.count(rb"\n") + 200_000 * own + 80_000 * below + min(5 * loaded, 2_500_000_000)
    return whole / 2


@functools.cache
def lines_of(crate):
    return sum(rtlib.text_of(it).count("\n") for it in rtlib.files_of(crate.folder))


def side_by_side(tasks, work, waits=lambda task, other: False, crate_of=lambda task: task, weight=lines_of, jobs=1, look=lambda: None):
    """Does each task, which is the work of a crate, each after all those that it waits for, as many side by side as there are processors and memory,
    and gives what each answered. The first is that with which the heaviest way begins, through those that wait: it is given the
    jobs that no other task has, and half of all at least, since each further job costs half as much again; the others have one each, of
    a lower priority. A look is taken each second."""
    ways = {}
    for task in sorted(tasks, key=lambda it: -sum(waits(it, other) for other in tasks)):
        ways[task] = weight(task) + max((ways[it] for it in ways if waits(it, task)), default=0)
    left = sorted(tasks, key=lambda it: -ways[it])
    memory = 0.85 * free()
    running, given = {}, {}
    with ThreadPoolExecutor(processors()) as first, ThreadPoolExecutor(processors(), initializer=os.nice, initargs=(10,)) as lower:
        while left or running:
            busy = [*left, *(it for it, _ in running.values())]
            ready = [it for it in left if not any(waits(it, other) for other in busy)]
            others = len(ready) - 1 + len(running)
            for task in ready:
                is_first = all(ways[task] >= ways[it] for it in busy)
                own_jobs = max(jobs // 2, jobs - others, 1) if is_first else 1
                needs = need(crate_of(task), own_jobs) + sum(need(crate_of(it), count) for it, count in running.values())
                if len(running) < processors() and (not running or needs < memory):
                    left.remove(task)
                    running[(first if is_first else lower).submit(work, task, own_jobs)] = task, own_jobs
            for it in wait(running, timeout=1, return_when=FIRST_COMPLETED).done:
                given[running.pop(it)[0]] = it.result()
            look()
    return given


# The libraries that were built on this machine, each in a folder named by the sum of all that it is made from, so that none is ever
# stale, and every clone takes what another has built. What was not used for longest goes where they are more than so many bytes.
STORE = os.path.join(os.environ.get("XDG_CACHE_HOME") or os.path.expanduser("~/.cache"), "vangolive", "libraries")
STORE_MOST = 10_000_000_000


def use_own(crates):
    """Has the crates use the libraries of the store, made from the files as they are now, in place of those that rt makes."""
    for it in crates:
        it.rlib = f"{STORE}/{stamp_of(it)}/{it.name}.rlib"


def is_built(crate):
    """Whether the store has the crate's library, which then counts as used now."""
    try:
        os.utime(os.path.dirname(crate.rlib))
        return True
    except OSError:
        return False


def build_library(crate, jobs):
    """Proves a library from nothing and puts it into the store, with what others can cite of it and without its proofs, as rt ci
    builds it. Gives the status."""
    folder = os.path.dirname(crate.rlib)
    os.makedirs(STORE, 0o700, exist_ok=True)
    with tempfile.TemporaryDirectory(dir=STORE, prefix="new-") as room:
        words = [*crate.words(["--jobs", str(jobs)], keeps=False), "--statements", "-o", f"{room}/made/{crate.name}.rlib"]
        os.makedirs(f"{room}/made")
        status = crate.call(rtlib.RATTLE, "build", *words)
        if status == 0 and os.path.basename(folder) != stamp_of(crate):
            print(f"a file of {crate.name} or of a crate below changed meanwhile: run this again", file=crate.out)
            return 1
        if status == 0:
            try:
                os.rename(f"{room}/made", folder)
            except OSError:
                # (another run has put it there meanwhile)
                return 0 if is_built(crate) else 1
    return status


# So old, in seconds, a folder of the store that is not finished was left by a run that was stopped.
UNFINISHED = 86_400


def shrink_store(crates):
    """Removes what stopped runs left in the store, and what it has too much, and none of the libraries of these crates."""
    kept = {os.path.dirname(it.rlib) for it in crates}
    ages, size = {}, 0
    # (another run may change and remove folders meanwhile)
    for it in os.scandir(STORE) if os.path.isdir(STORE) else ():
        with contextlib.suppress(OSError):
            ages[it.path] = time.time() - it.stat().st_mtime
    for path, age in sorted(ages.items(), key=lambda it: it[1]):
        with contextlib.suppress(OSError):
            size += sum(os.path.getsize(f"{at}/{name}") for at, _, names in os.walk(path) for name in names)
            is_unfinished = os.path.basename(path).startswith("new-")
            if age > UNFINISHED if is_unfinished else size > STORE_MOST and path not in kept:
                # (under another name first: what is left of a library where this is stopped must not stand under its own)
                gone = tempfile.mkdtemp(dir=STORE, prefix="new-")
                os.rename(path, gone)
                shutil.rmtree(gone, ignore_errors=True)


def build_libraries(libraries, started=lambda crate: None, ended=lambda crate, status, said: None, look=lambda: None):
    """Proves and builds these libraries, lowest first, side by side where none stands on the other, and gives whether all are proved. Each
    that is built stays, so that a build which was interrupted goes on from there."""
    failed = set()

    def work(crate, jobs):
        if failed & {*crate.below()}:
            failed.add(crate)
            return
        started(crate)
        with tempfile.TemporaryFile("a+", errors="replace") as crate.out:
            status = build_library(crate, jobs)
            crate.out.seek(0)
            said = crate.out.read()
        if status:
            failed.add(crate)
        ended(crate, status, said)

    side_by_side(libraries, work, lambda crate, other: other in crate.below(), jobs=processors(), look=look)
    if libraries:
        shrink_store({below for it in libraries for below in [*it.below(), it]})
    return not failed
