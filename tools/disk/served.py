"""A script that `serve` runs over books, a call of which is broken: what the run told and what the books have then; and where the same
script, run again, and the resending that may be wanted come to."""
import os
import random
import re
import shutil
import tempfile

from book_files import SIDES, Wrong, book_of, both_facts, make_books
from breaking import AS, ASKS, AT_THE_END, HALVES, HARMLESS, KILLS, READS, WRITES, can_be_broken, gone, on_the_disk, shown, without_effect

POINT, DAY = "BORDER-1", "2026-01-15"
KINDS = ("open", "confirmed")
SERVE = ["serve", "--sessions", "1", "--books", "day"]
AUDIT = ["audit", "--initiating", "day-I.db", "--matching", "day-M.db", "--point", POINT]
FAULTS = (b"gi_dispatch: Store\n", b"gi_dispatch: Store Store\n")
# how many calls before and behind are about one
ABOUT = 12
# (where it cannot be asked whether a file of two new books is there, it counts as there)
ONE_ALONE = (b"gi_dispatch: MissingBook I\n", b"gi_dispatch: MissingBook M\n")
OVER = b"settled I ok\nsettled M ok\nreconciled ok\n"
OPEN = re.compile(r"(\S+) (\d+) open at (?:I|both)$")


def is_front(written, whole):
    """Whether these are first lines of the whole."""
    return whole.startswith(written) and (written == b"" or written.endswith(b"\n"))


def units(lines):
    """Of each line of a script, from 1, the last one of its batch, or itself."""
    last = {}
    for at in range(len(lines), 0, -1):
        batched = " submit " in lines[at - 1] and at < len(lines) and " submit " in lines[at]
        last[at] = last[at + 1] if batched else at
    return last


def about_copying(calls):
    """Those about a write to a book's file, in which it gets what its log has."""
    writes = [at for at, it in enumerate(calls) if it.name in WRITES and it.file.endswith(".db")]
    if not writes:
        raise Wrong("no log is copied into its file")
    return [it for at, it in enumerate(calls) if writes[0] - ABOUT <= at <= writes[-1] + ABOUT]


def report_words(kind, side):
    return ["report", kind, side, "--book", f"day-{side}.db", "--point", POINT]


def counts_of(held):
    """How many facts each side has; None where it has no book."""
    return tuple(None if held[side] is None else len(held[side]) for side in SIDES)


class Served:
    """A script over books that stand so at first, or over none. Of one that copies a log into its file the calls about that are broken alone."""

    def __init__(self, breaking, script, begins=None, copies=False):
        self.breaking, self.script, self.begins = breaking, script, begins
        self.known, self.reported = {}, {}
        folder = self.books()
        self.before = both_facts(folder)
        self.whole, self.calls = breaking.noted(SERVE, script, folder)
        if self.whole.status or self.whole.errors or not self.whole.output.endswith(OVER):
            raise Wrong(f"the whole run has status {self.whole.status}, {self.whole.errors!r}")
        if copies:
            self.calls = about_copying(self.calls)
        self.folder, self.facts = folder, both_facts(self.books(folder))
        self.confirmed, self.audit = self.looked(folder, KINDS[1:]), self.breaking.plain(AUDIT, b"", folder)
        if not self.audit.output.endswith(b"\nagreed\n") or b"open" in self.audit.output:
            raise Wrong(f"the whole run leaves the audit {self.audit.output!r}")
        self.reach()

    def books(self, of=None):
        """A folder with a copy of these books, or of those of the beginning."""
        folder = tempfile.mkdtemp()
        of = of or self.begins
        if of:
            shutil.copytree(of, folder, dirs_exist_ok=True)
        return folder

    def reach(self):
        """How many facts both sides have after each first lines of the script, and before them."""
        lines = self.script.decode().splitlines()
        self.last, self.after = units(lines), [tuple(it or 0 for it in counts_of(self.before))]
        for count in range(1, len(lines) + 1):
            folder = self.books()
            first = "".join(f"{it}\n" for it in lines[:count]).encode()
            done = self.breaking.plain(SERVE, first, folder)
            if done.status:
                raise Wrong(f"the first {count} lines have status {done.status}, {done.errors!r}")
            self.after.append(counts_of(both_facts(folder)))
            shutil.rmtree(folder)

    def looked(self, folder, kinds=KINDS):
        """What the program reports of both books; None of a file that is no book yet."""
        found = {}
        for side in SIDES:
            if os.path.exists(book_of(folder, side)):
                for kind in kinds:
                    done = self.breaking.plain(report_words(kind, side), b"", folder)
                    is_none = done[:3] == (3, b"", b"gi_dispatch: Version\n")
                    if (done.status or done.errors) and not is_none:
                        raise Wrong(f"report {kind} {side}: status {done.status}, {done.errors!r}")
                    found[kind, side] = None if is_none else done.output
        return found

    def reports_of(self, held):
        """What the program reports of books of these facts that another SQLite made."""
        found = {}
        for side in SIDES:
            key = side, None if held[side] is None else len(held[side])
            if key not in self.reported:
                folder = tempfile.mkdtemp()
                make_books(folder, {side: held[side]})
                self.reported[key] = self.looked(folder)
                shutil.rmtree(folder)
            found.update(self.reported[key])
        return found

    def from_here(self, held):
        """What the script comes to over other books of these facts: its output and errors, and the facts then."""
        key = counts_of(held)
        if key not in self.known:
            folder = tempfile.mkdtemp()
            make_books(folder, held)
            done = self.breaking.plain(SERVE, self.script, folder)
            if done.status or not done.output.endswith(OVER):
                raise Wrong(f"over books of {key} facts the script has status {done.status}, {done.errors!r}")
            self.known[key] = done[:3] + (both_facts(folder),)
            shutil.rmtree(folder)
        return self.known[key]

    def one(self, call, way):
        """What came of a run of which this call is broken."""
        folder = self.books()
        done = self.breaking.broken(SERVE, self.script, folder, call, way)
        try:
            what = self.ended(done, call, way)
            held = both_facts(folder)
            steps = self.kept(folder, held, what, self.steps(done))
            if way in AS:
                left = on_the_disk(folder, random.Random(f"{call.file} {call.number}") if way == "mixed" else None)
                gone(folder)
                folder, held = left, both_facts(left)
                self.kept(folder, held, what, steps)
            self.goes_on(folder, held)
        except Wrong as wrong:
            raise Wrong(f"{shown(done.hit or call)}: status {done.status}, {done.errors!r}: {wrong}") from None
        gone(folder)
        return what

    def ended(self, done, call, way):
        """How the run ended."""
        is_whole = (done.status, done.output, done.errors) == self.whole[:3]
        # (which call has a number hangs on the threads: one that moves no bytes may have it, and is not halved)
        is_broken = done.hit is not None and (way not in HALVES or can_be_broken(done.hit, way))
        if not is_broken:
            if not is_whole:
                raise Wrong("nothing was broken, and it ended otherwise")
            return "not reached" if call is not AT_THE_END else "whole"
        if not is_front(done.output, self.whole.output):
            raise Wrong(f"{done.output[-80:]!r} was written")
        if way in KILLS:
            if done.status != -9 or done.errors:
                raise Wrong("it was not killed, or had told a fault")
            return "killed"
        if is_whole:
            return "whole" if way in HARMLESS else without_effect(done.hit)
        # (a page that is held against its digest is read by one call: less of it is a fault)
        is_fault = way not in HARMLESS or done.hit.name in READS
        is_asked = not self.begins and done.hit.name in ASKS
        if not is_fault or done.status != 3 or done.errors not in (FAULTS + ONE_ALONE if is_asked else FAULTS):
            raise Wrong("it ended otherwise")
        return "told"

    def kept(self, folder, held, what, steps):
        """The books load, and have what was there before, and first facts of the whole run's; of the steps behind which the run may have
        ended, those that fit."""
        reports = self.looked(folder)
        for side in SIDES:
            now, before = held[side] or [], self.before[side] or []
            if now[: len(before)] != before:
                raise Wrong(f"{side} has lost facts")
            if self.facts[side][: len(now)] != now:
                raise Wrong(f"{side} has other facts than those of a whole run")
        wanted = {key: it for key, it in self.reports_of(held).items() if it is not None}
        if {key: it for key, it in reports.items() if it is not None} != wanted:
            raise Wrong("the program reads other facts than another SQLite does")
        now = tuple(it or 0 for it in counts_of(held))
        if not what.startswith(("told", "killed")) and held != self.facts:
            raise Wrong("the run was whole, and its facts are not")
        fit = [at for at in steps if all(least <= it <= most for least, it, most in zip(self.after[at], now, self.after[self.last.get(at + 1, at)]))]
        if not fit:
            raise Wrong(f"the books do not stand behind step {steps[0]}, nor between it and {steps[-1]}")
        return fit

    def steps(self, done):
        """The lines of the script behind which the run may have ended: each, or, of a run that was cut off, the one told last."""
        told = [int(it.split()[0]) for it in done.output.decode().splitlines() if it[:1].isdigit()]
        last = len(self.after) - 1
        if done.status in (3, -9):
            return [min(told[-1] if told else 1, last)]
        return range(last + 1)

    def goes_on(self, folder, held):
        """The script, run again, comes to what it comes to over other books of these facts; and in the end all is agreed."""
        again = self.breaking.plain(SERVE, self.script, folder)
        if again[:3] + (both_facts(folder),) != self.from_here(held):
            raise Wrong(f"over its books of {counts_of(held)} facts the script has status {again.status}, {again.errors!r}")
        audit = self.breaking.plain(AUDIT, b"", folder)
        still_open = [it for it in map(OPEN.match, audit.output.decode().splitlines()) if it]
        if still_open:
            lines = [f"point {POINT}"]
            for day, cycle in (it.groups() for it in still_open):
                lines += [f"I resend {day} {int(cycle)}", "M carry", "I carry"]
            sent = self.breaking.plain(SERVE, "".join(f"{it}\n" for it in lines).encode(), folder)
            if sent.status or not sent.output.endswith(OVER):
                raise Wrong(f"sent again, it has status {sent.status}, {sent.errors!r}")
            audit = self.breaking.plain(AUDIT, b"", folder)
        if audit != self.audit:
            raise Wrong(f"in the end the audit says {audit.output!r}")
        if self.looked(folder, KINDS[1:]) != self.confirmed:
            raise Wrong("in the end other quantities are confirmed")
