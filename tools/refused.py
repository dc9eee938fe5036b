"""The record of the wrong bodies that were refused: the file `refused` of their folder, sorted, with a line for each edit: its crate and
name, and a sum of all that the verdict stands on: the kit's number and logic, the crate's files, what a trial sees of the crates below,
the edit, and the tools that judge. A trial sees no body and no comment of a crate below, so that these are not in the sum; its clauses, types, specs/ and
proofs/ are. A line is written only by a run that has itself refused the edit, and goes with the edit. One whose sum is no longer that
of the files says nothing."""
import contextlib
import functools
import hashlib
import os
import subprocess
import tempfile
import threading

import kit
from edits import outline, text_of

NAME = "refused"
TOOLS = [f"{kit.TOP}/wrong_bodies/run", *(f"{kit.TOP}/tools/{it}.py" for it in ("edits", "kit", "refused", "trial"))]
# Of so many edits with a current line a run draws one, and tries it all the same.
ONE_IN = 16


def sum_of(text):
    return hashlib.sha256(text.encode()).hexdigest()


@functools.cache
def sum_of_file(file, is_below, _):
    is_code = is_below and file.endswith(".rt")
    return sum_of(outline(text_of(file))) if is_code else kit.rtlib.sum_of(file)


def files_of(crate, is_below):
    """The crate's files, each with a sum of what the verdict stands on: of a crate below no body and no comment of its code."""
    for file in kit.rtlib.files_of(crate.folder):
        found = os.stat(file)
        stamp = found.st_ino, found.st_size, found.st_mtime_ns
        yield crate.name, os.path.relpath(file, crate.folder), sum_of_file(file, is_below, stamp)


def name_of(edit):
    return f"{edit.crate.name}/{edit.name}"


def base_of(crate):
    """A sum of all that the verdicts on the crate's edits stand on beside the edits."""
    below = crate.below()
    libraries = [(it.name, it.of_kit, [dep.name for dep in it.deps]) for it in [*below, crate]]
    files = [*(row for it in below for row in files_of(it, True)), *files_of(crate, False)]
    return sum_of(repr((kit.logic_of_kit(), libraries, files, [kit.rtlib.sum_of(it) for it in TOOLS])))


def stamp_of(edit, base):
    return sum_of(repr((base, edit.name, kit.rtlib.sum_of(edit.file))))


def commit_of(top):
    """The name of the commit that is checked out, or nothing where there is none."""
    said = subprocess.run(["git", "-C", top, "rev-parse", "HEAD"], capture_output=True, text=True)
    return said.stdout.strip() if said.returncode == 0 else ""


def is_drawn(commit, edit):
    """Whether the sample of that commit has the edit: one in sixteen, other ones at another commit, and the same ones again at the same."""
    return int(sum_of(f"{commit} {name_of(edit)}")[:8], 16) % ONE_IN == 0


class Record:
    """The record of a folder, which is not written where the folder has none and is not the repository's own."""

    def __init__(self, folder, edits, is_written):
        self.file, self.lock, self.is_written = f"{folder}/{NAME}", threading.Lock(), is_written
        self.lines = dict(line.split() for line in (kit.rtlib.text_of(self.file) or "").splitlines())
        self.before = dict(self.lines)
        bases = {it: base_of(it) for it in {edit.crate for edit in edits}}
        self.stamps = {it: stamp_of(it, bases[it.crate]) for it in edits}
        self.current = {it for it in edits if self.lines.get(name_of(it)) == self.stamps[it]}

    def note(self, edit, is_refused):
        """Writes that the edit is refused, where no file that this stands on has changed since the run began; what is not has no line."""
        with self.lock:
            self.lines.pop(name_of(edit), None)
            with contextlib.suppress(OSError):
                if is_refused and stamp_of(edit, base_of(edit.crate)) == self.stamps[edit]:
                    self.lines[name_of(edit)] = self.stamps[edit]
            self.write()

    def drop_gone(self, crates):
        """Drops the lines of edits that are gone: of these crates, or of all where None are named."""
        names = {name_of(it) for it in self.stamps}
        with self.lock:
            self.lines = {it: sum for it, sum in self.lines.items() if it in names or (crates and it.partition("/")[0] not in crates)}
            self.write()

    def write(self):
        if self.is_written and self.lines != self.before:
            self.before = dict(self.lines)
            with tempfile.NamedTemporaryFile("w", dir=os.path.dirname(self.file), delete=False, encoding="utf-8") as it:
                it.writelines(f"{name} {stamp}\n" for name, stamp in sorted(self.lines.items()))
            os.chmod(it.name, 0o644)
            os.replace(it.name, self.file)
