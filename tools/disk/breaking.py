"""Runs of the built program in which a call on the books' files is broken (breaking.c)."""
import collections
import contextlib
import os
import shutil
import subprocess
import tempfile

from book_files import Wrong

HERE = os.path.dirname(os.path.realpath(__file__))
TOP = os.path.dirname(os.path.dirname(HERE))
PROGRAM = f"{TOP}/crates/gi_dispatch/out/gi_dispatch"
SECONDS, SECTOR = 60, 512
# a call on a file: its number among those on that file, what it is, how many bytes it moves, and the file's name
Call = collections.namedtuple("Call", "number name size file")
AT_THE_END = Call(0, "no call", 0, ".")
# what came of a run: its status, what it wrote, and the call that was broken, if it was made
Done = collections.namedtuple("Done", "status output errors hit")
WRITES = {"write", "writev", "pwrite"}
READS = {"read", "pread"}
TAKES_ROOM = {*WRITES, "open_to_make", "ftruncate", "fallocate", "fsync", "fdatasync", "rename"}
CHANGES = {*TAKES_ROOM, "unlink", "fchmod", "fchown"}
# what asks whether a file is there; and what may fail without effect: what only asks or reads, since its answer is not always wanted
ASKS = {"access", "statx"}
UNSEEN = {*ASKS, *READS, "realpath", "open", "fadvise"}
# each way to break a call, what it is in words, and which calls are broken by it (None: all)
WAYS = {
    "EIO": ("EIO", None),
    "ENOSPC": ("ENOSPC", TAKES_ROOM),
    "all_EIO": ("EIO from then on", None),
    "all_ENOSPC": ("ENOSPC from then on", TAKES_ROOM),
    "filled": ("half a write, and then ENOSPC", WRITES),
    "torn": ("half a write, and EIO", WRITES),
    "short": ("half of the bytes moved, and told", WRITES | READS),
    "before": ("killed before", CHANGES),
    "halfway": ("killed in the midst of a write", WRITES),
    "after": ("killed after", CHANGES),
    "lost": ("the power cut before, and nothing kept that was not synced", CHANGES),
    "mixed": ("the power cut before, and of what was not synced some sectors kept", CHANGES),
    "unsynced": ("EIO of a sync, and nothing kept that was not synced", {"fsync", "fdatasync"}),
}
HALVES = {"filled", "torn", "short", "halfway"}
# each by what the library does for it, where that has another name
AS = {"lost": "before", "mixed": "before", "unsynced": "EIO"}
KILLS = {"before", "halfway", "after", "lost", "mixed"}
# what has to end well, but of some reads
HARMLESS = {"short"}


def calls_in(name):
    """The calls that a file tells."""
    if not os.path.exists(name):
        return []
    with open(name, encoding="utf-8") as file:
        lines = [it.split(" ", 3) for it in file.read().splitlines()]
    return [Call(int(number), call, int(size), it) for number, call, size, it in lines]


def shown(call):
    return f"{call.name} {call.number} of {call.file}"


def can_be_broken(call, way):
    """Whether the call can be broken in this way."""
    kinds = WAYS[way][1]
    # (a head is a line at the beginning of its file, within one sector, which a disk finishes: no kill leaves half of it)
    is_whole = call.file.endswith("-head") and way == "halfway"
    return (kinds is None or call.name in kinds) and (call.size > 1 or way not in HALVES) and not is_whole


def without_effect(call):
    """That this call failed and nothing came of it."""
    # (a folder is opened to be synced)
    if call.name not in UNSEEN or (call.name, call.file) == ("open", "."):
        raise Wrong("it failed, and nothing was told")
    return f"{call.name} without effect"


class Breaking:
    """A library that breaks calls, and a folder for what it tells."""

    def __init__(self, scratch):
        self.scratch, self.library = scratch, f"{scratch}/breaking.so"
        compiled = [os.environ.get("CC", "gcc"), "-O2", "-shared", "-fPIC", "-o", self.library, f"{HERE}/breaking.c"]
        subprocess.run(compiled, check=True)

    def run(self, words, given, folder, **variables):
        """A run in this folder with these words and this text as its input, whose library has these variables, if any."""
        env = dict(os.environ)
        if variables:
            env.update(variables, LD_PRELOAD=self.library, FOLDER=os.path.realpath(folder))
        try:
            done = subprocess.run([PROGRAM, *words], input=given, capture_output=True, env=env, cwd=folder, timeout=SECONDS)
        except subprocess.TimeoutExpired:
            raise Wrong(f"{' '.join(words)} did not end in {SECONDS} seconds") from None
        return done

    def plain(self, words, given, folder):
        """A run of which no call is broken."""
        done = self.run(words, given, folder)
        return Done(done.returncode, done.stdout, done.stderr, None)

    def noted(self, words, given, folder):
        """The same, and its calls on the files of the folder."""
        name = f"{folder} noted"
        done = self.run(words, given, folder, NOTED=name)
        return Done(done.returncode, done.stdout, done.stderr, None), calls_in(name)

    def broken(self, words, given, folder, call, way):
        """A run of which this call is broken."""
        name = f"{folder} told"
        variables = {"FILE": call.file, "NUMBER": str(call.number), "WAY": AS.get(way, way), "TOLD": name}
        if way in AS:
            variables["SYNCED"] = all_synced(folder)
        done = self.run(words, given, folder, **variables)
        hit = calls_in(name)
        return Done(done.returncode, done.stdout, done.stderr, hit[0] if hit else None)


def synced_of(folder):
    """Where it stands what of a folder is on the disk."""
    return f"{folder} synced"


def gone(folder):
    """Takes a folder away, with what is told of it."""
    for it in (folder, synced_of(folder)):
        shutil.rmtree(it, ignore_errors=True)
    with contextlib.suppress(FileNotFoundError):
        os.remove(f"{folder} told")


def all_synced(folder):
    """The folder as it stands is on the disk."""
    os.mkdir(synced_of(folder))
    with open(f"{synced_of(folder)}/names", "w", encoding="utf-8") as names:
        for it in os.scandir(folder):
            shutil.copy(it.path, f"{synced_of(folder)}/{it.inode()}")
            names.write(f"{it.inode()} {it.name}\n")
    return synced_of(folder)


def sectors(old, new, chance):
    """Bytes of which each sector is the old one or the new one; behind the old end it may be any, and the end is one of both."""
    size, found = chance.choice((len(old), len(new))), b""
    for at in range(0, size, SECTOR):
        ways = [old[at : at + SECTOR], new[at : at + SECTOR]]
        if at >= len(old):
            ways[0] = chance.choice((b"", chance.randbytes(SECTOR)))
        found += chance.choice(ways)[:SECTOR].ljust(SECTOR, b"\0")
    return found[:size]


def on_the_disk(folder, chance):
    """A folder with what is on the disk of this one: what was synced alone, or, by chance, also some of what was not."""
    now = {it.inode(): it for it in os.scandir(folder)}
    with open(f"{synced_of(folder)}/names", encoding="utf-8") as file:
        names = {name: int(inode) for inode, name in (it.split(" ", 1) for it in file.read().splitlines())}
    if chance:
        # (of what the folder was not synced with, some names are kept)
        names.update({it.name: inode for inode, it in now.items() if chance.random() < 0.5})
    left = tempfile.mkdtemp()
    for name, inode in names.items():
        old = bytes_of(f"{synced_of(folder)}/{inode}")
        new = bytes_of(now[inode].path) if inode in now else old
        with open(f"{left}/{name}", "wb") as file:
            file.write(sectors(old, new, chance) if chance else old)
    return left


def bytes_of(name):
    """What a file holds; nothing where it is not there."""
    if not os.path.exists(name):
        return b""
    with open(name, "rb") as file:
        return file.read()
