"""Commands over books: what stands there after each refusal, and what the command says of it then."""
import os
import shutil
import tempfile

from book_files import SIDES, Wrong, both_facts, make_books
from refusal import RECONCILED, all_reached, ended, whole_run

SERVE = ["gi_dispatch", "serve", "--books", "day"]
# what `serve` writes behind the lines of its steps
LAST_OF_SERVE = 5


class Books:
    """A day that `serve` ran over books that stand so at first, or over none: each refusal of a command over them, or of that day itself."""

    def __init__(self, refusing, script, begins=None):
        self.refusing, self.script, self.begins = refusing, script, begins
        self.folder = self.copied(begins)
        self.before = both_facts(self.folder)
        self.whole = whole_run(refusing, SERVE, script, self.folder)
        self.held = both_facts(self.folder)
        # what the day comes to, from books of these numbers of facts
        self.known = {}

    def copied(self, of):
        """A copy of these books, with their logs, in a folder of its own."""
        folder = tempfile.mkdtemp(dir=self.refusing.scratch)
        if of:
            shutil.copytree(of, folder, dirs_exist_ok=True)
        return folder

    def looked_at(self, words, most, least):
        """Refuses the memory of a command that looks at the books, which has one thread: they stand as before, and the command
        made again says what it says otherwise. So many refusals must be told at least."""
        whole = whole_run(self.refusing, words, os.devnull, self.copied(self.folder))

        def one(number):
            folder = self.copied(self.folder)
            what = ended(words, number, self.refusing.run(words, os.devnull, number, folder), whole, None)
            again = self.refusing.run(words, os.devnull, 0, folder)
            if (again.status, again.output, again.errors) != (whole.status, whole.output, whole.errors):
                raise Wrong(f"allocation {number}: made again it has status {again.status}, {again.errors!r}")
            if both_facts(folder) != self.held:
                raise Wrong(f"allocation {number}: the books have other facts")
            shutil.rmtree(folder)
            return what

        counts = self.refusing.each(self.refusing.numbers(whole.count, most), one)
        all_reached(counts, False)
        if counts["told"] < least:
            raise Wrong(f"only {counts['told']} refusals were told")
        return counts, whole.count

    def from_here(self, held):
        """What the day comes to from books of these facts: its output and errors, and the facts that stand then."""
        key = tuple(None if held[side] is None else len(held[side]) for side in SIDES)
        if key not in self.known:
            folder = tempfile.mkdtemp(dir=self.refusing.scratch)
            make_books(folder, held)
            done = self.refusing.run(SERVE, self.script, 0, folder)
            if done.status or done.errors or not done.output.endswith(RECONCILED):
                raise Wrong(f"over books of {key} facts the day has status {done.status}, {done.errors!r}")
            self.known[key] = (done.status, done.output, done.errors, both_facts(folder))
        return self.known[key]

    def is_front_of_day(self, held):
        """Whether these are first facts of the day, at both sides, with those of before."""
        return all((its or []) == self.held[side][: max(len(its or []), len(self.before[side] or []))] for side, its in held.items())

    def served(self, most, least):
        """Refuses the memory of the day itself, which has several threads. Each book has first facts of the day then, with those of
        before, and the day that is run over them again comes to what it comes to over others of the same facts. So many refusals must be
        told at least, counted as of all."""

        def one(number):
            folder = self.copied(self.begins)
            done = self.refusing.run(SERVE, self.script, number, folder)
            what = ended(SERVE, number, done, self.whole, LAST_OF_SERVE)
            held = both_facts(folder)
            if not self.is_front_of_day(held):
                raise Wrong(f"allocation {number}: the books have other facts than the day's first")
            again = self.refusing.run(SERVE, self.script, 0, folder)
            now = (again.status, again.output, again.errors, both_facts(folder))
            if now != self.from_here(held):
                raise Wrong(f"allocation {number}: run again, the day has status {again.status}, {again.errors!r}")
            shutil.rmtree(folder)
            return what

        numbers = self.refusing.numbers(self.whole.count + self.whole.count // 16, most)
        counts = self.refusing.each(numbers, one)
        all_reached(counts, True)
        if counts["told"] * numbers.step < least:
            raise Wrong(f"only {counts['told']} refusals were told")
        return counts, self.whole.count
