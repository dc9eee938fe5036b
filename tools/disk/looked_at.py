"""Commands that only read, and a `serve` that finds one book alone, of which a call on the books' files fails."""
import contextlib
import os
import shutil
import tempfile

from book_files import ENDS, Wrong, book_of
from breaking import HARMLESS, gone, shown, without_effect
from served import FAULTS


def files_in(folder):
    """What the files of a folder hold."""
    found = {}
    for name in os.listdir(folder):
        with open(f"{folder}/{name}", "rb") as file:
            found[name] = file.read()
    return found


class LookedAt:
    """A command over the books of a folder, which changes none of its files, whatever fails. Of a `serve` the book of one side is taken away."""

    def __init__(self, breaking, words, begins, given=b"", without=None):
        self.breaking, self.words, self.given, self.without = breaking, words, given, without
        self.begins = tempfile.mkdtemp()
        shutil.copytree(begins, self.begins, dirs_exist_ok=True)
        if without:
            for end in ENDS:
                with contextlib.suppress(FileNotFoundError):
                    os.remove(book_of(self.begins, without) + end)
        self.held = files_in(self.begins)
        self.whole, self.calls = breaking.noted(words, given, self.begins)
        wanted = (3, f"gi_dispatch: MissingBook {without}\n".encode()) if without else (0, b"")
        if (self.whole.status, self.whole.errors) != wanted or files_in(self.begins) != self.held:
            raise Wrong(f"the whole run has status {self.whole.status}, {self.whole.errors!r}")

    def one(self, call, way):
        """What came of a run of which this call is broken."""
        folder = tempfile.mkdtemp()
        shutil.copytree(self.begins, folder, dirs_exist_ok=True)
        done = self.breaking.broken(self.words, self.given, folder, call, way)
        is_whole = (done.status, done.output, done.errors) == self.whole[:3]
        is_told = done.status == 3 and done.errors in FAULTS and not done.output
        if not is_whole and not (is_told and done.hit and way not in HARMLESS):
            raise Wrong(f"{shown(done.hit or call)}: status {done.status}, {done.errors!r}, {done.output[-80:]!r}")
        if files_in(folder) != self.held:
            raise Wrong(f"{shown(done.hit or call)}: the files are changed, status {done.status}, {done.errors!r}")
        gone(folder)
        return "not reached" if not done.hit else "told" if is_told else "whole" if way in HARMLESS else without_effect(done.hit)
