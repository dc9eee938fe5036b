"""Calls of gi_cases that are made again once they were refused memory. A first run, in which an allocation is refused, tells at which
call that was: the first that is answered otherwise, and its answer must be that memory is wanted. A second run of the same allocation,
whose lines are as many bytes, has more lines behind that call: what stands is asked, and must be what stood before; the call is made
again, and must be answered as it is with all memory; and so must be what follows. What took its values by move cannot be made again,
and is gone. Where the driver of the cases itself wants memory, the program ends, or makes nothing of the call, which is made again too. A
message that was read and whose own text is refused memory then is not kept."""
import collections
import re
import shutil
import tempfile

from book_files import Wrong
from refusal import ENDS, all_reached

# an answer that tells of want of memory, by the desk, a world, a book or an office
WANTS = re.compile(r"(Refused |Store |Office )?OutOfMemory$")


class Cases:
    """The calls of a file of cases, what they are answered, and what is asked between them."""

    # the call, if any, from which on the file is left out, and words whose calls are
    UNTIL, LEFT_OUT = None, ()
    # words of calls of which each allocation is refused, also where only some of the file's are
    EACH = ()

    def __init__(self, refusing, subject, path):
        self.refusing, self.words = refusing, ["gi_cases", subject]
        with open(path, encoding="utf-8") as file:
            calls = [it for it in file.read().splitlines() if it and not it.startswith(("#", "= "))]
        calls = calls[: calls.index(self.UNTIL)] if self.UNTIL in calls else calls
        self.calls = [it for it in calls if not any(word in it.split() for word in self.LEFT_OUT)]
        # (all inputs have one length, so that reading them takes the same allocations)
        self.size = 2 * sum(len(it.encode()) + 1 for it in self.calls) + 60000
        whole = self.run(self.calls, 0)
        if whole is None:
            raise Wrong("it does not end with all memory")
        self.answers, self.count = whole
        # the calls that were refused memory and told it, and how often
        self.wanting = collections.Counter()

    def questions(self, _at):
        """What is asked of what stands before a call."""
        return []

    def run(self, calls, number):
        """What the calls are answered where the allocation is refused, and how many were made; None where the program ends."""
        text = "".join(f"{it}\n" for it in calls).encode()
        if len(text) + 2 > self.size:
            raise Wrong("there are too many lines")
        folder = tempfile.mkdtemp(dir=self.refusing.scratch)
        with tempfile.NamedTemporaryFile(dir=self.refusing.scratch) as given:
            given.write(text + b"#" * (self.size - len(text) - 1) + b"\n")
            given.flush()
            done = self.refusing.run(self.words, given.name, number, folder)
        shutil.rmtree(folder)
        status, faults = ENDS["gi_cases"]
        if done.status == status and done.is_told and done.errors in faults and not done.output:
            return None
        if done.status or done.errors:
            raise Wrong(f"allocation {number}: status {done.status}, {done.errors!r}")
        return answers_of(calls, done.output.decode()), done.count if done.is_told or not number else 0

    def before(self):
        """What stands before each call, and behind the last one, as it is asked."""
        asked, places = [], []
        for at in range(len(self.calls) + 1):
            places.append((len(asked), len(self.questions(at))))
            asked += [*self.questions(at), *self.calls[at : at + 1]]
        answers, _ = self.run(asked, 0)
        if [answers[first + count] for first, count in places[:-1]] != self.answers:
            raise Wrong("what is asked between the calls changes their answers")
        return [answers[first : first + count] for first, count in places]

    def up_to(self, at):
        """How many allocations are asked for up to the end of the calls before this one."""
        return self.run(self.calls[:at], 0)[1]

    def in_each(self):
        """The numbers of all allocations in the calls of EACH."""
        calls = [at for at, call in enumerate(self.calls) if any(word in call.split()[:2] for word in self.EACH)]
        return {number for at in calls for number in range(self.up_to(at) + 1, self.up_to(at + 1) + 1)}

    def all(self, most, least, ways):
        """Refuses each allocation in turn, or evenly some and those in the calls of EACH; so many calls at least have to be made again,
        counted as of all, and each of these ways has to be gone."""
        self.stood = self.before()
        evenly = self.refusing.numbers(self.count, most)
        counts = self.refusing.each(evenly, self.one)
        again = sum(count for what, count in counts.items() if what not in ("ended", "done without"))
        if again * evenly.step < least:
            raise Wrong(f"only {again} calls were made again")
        counts += self.refusing.each(sorted(self.in_each().difference(evenly)), self.one)
        all_reached(counts, False)
        for way in ways:
            if not counts[way]:
                raise Wrong(f"no refusal was {way}")
        for name, places in self.wanted().items():
            if not any(self.wanting[at] for at in places):
                raise Wrong(f"{name} never told that it wants memory")
        return counts, self.count

    def wanted(self):
        """Names, and of each the places of calls of which one at least has to be refused memory, and to tell it."""
        return {}

    def of_kinds(self, words):
        """The places of the calls of each of these words that the file has."""
        made = {}
        for at, call in enumerate(self.calls):
            for word in set(call.split()[:2]).intersection(words):
                made.setdefault(word, []).append(at)
        return made

    def one(self, number):
        """What came of one refusal."""
        first = self.run(self.calls, number)
        if first is None:
            return "ended"
        answers, reached = first
        if not reached:
            return "not reached"
        at = next((at for at, it in enumerate(answers) if it != self.answers[at]), None)
        if at is None:
            return "done without"
        what = self.made_again(number, at, answers[at])
        if what != "ended" and any(map(WANTS.match, answers[at][-1:])):
            self.wanting[at] += 1
        return what

    def made_again(self, number, at, answer):
        """What came of a call that was refused memory and is made again."""
        if answer == self.driver_wants(at):
            return "ended"
        self.wants_alone(number, at, answer)
        self.compare(number, at, answer, self.behind(at, answer), self.rest(at))
        return "made again"

    def wants_alone(self, number, at, answer):
        """A refused call tells that it wants memory, and nothing else."""
        if len(answer) != 1 or not WANTS.match(answer[0]):
            raise Wrong(f"allocation {number}: {self.calls[at][:60]!r} is answered {answer[:2]!r}")

    def driver_wants(self, _at):
        """What the driver of the cases answers to this call, where it goes on without the memory that it wanted itself."""
        return None

    def behind(self, at, _answer):
        """The lines behind a call that was refused memory, each with its answer: what stands, the call again, and what stands then."""
        asked = [*zip(self.questions(at), self.stood[at])]
        return [*asked, (self.calls[at], self.answers[at])]

    def rest(self, at):
        """The lines behind that, each with its answer."""
        return [*zip(self.calls[at + 1 :], self.answers[at + 1 :])]

    def compare(self, number, at, answer, behind, rest):
        """Makes the second run, and compares it."""
        front = [*zip(self.calls[:at], self.answers[:at]), (self.calls[at], answer)]
        wanted = [*front, *behind, *rest]
        got = self.run([call for call, _ in wanted], number)
        if got is None:
            raise Wrong(f"allocation {number}: it ended when {self.calls[at][:60]!r} was made again")
        for (call, its_answer), its_got in zip(wanted, got[0]):
            if its_answer is not None and its_got != its_answer:
                raise Wrong(f"allocation {number}, {self.calls[at][:60]!r} again: {call[:60]!r} is answered {its_got[:2]!r}, not {its_answer[:2]!r}")

    def one_way(self, number, at, answer, ways, rest):
        """Which of these ways, by the lines behind the call, the run goes."""
        told = []
        for way, behind in ways.items():
            try:
                self.compare(number, at, answer, behind, rest)
                return way
            except Wrong as wrong:
                told.append(str(wrong))
        raise Wrong("; ".join(told))


class Messages(Cases):
    """Messages: the one that was read before stays, also where it is the text of a new one that is refused memory."""

    def questions(self, at):
        return ["fields"] if at else []

    def wanted(self):
        """A message of each kind."""
        kinds = ("NOMINT", "ACKNOW", "NOMRES", "DELORD", "DELRES")
        return {kind: [at for at, call in enumerate(self.calls) if f'"kind":"{kind}"' in call] for kind in kinds}

    def all(self, most, least, ways):
        counts = super().all(most, least, ways)
        # (an order or a response in the office's own text is read in one pass, and as JSON where that is refused memory: so it tells only
        # of the text that is written for it; with its keys in another order it tells of its reading too)
        for kind in ("DELORD", "DELRES"):
            own, other = self.wanted()[kind]
            if self.wanting[other] <= self.wanting[own]:
                raise Wrong(f"{kind} never told that its reading wants memory")
        return counts


class Worlds(Cases):
    """Steps of a world, and runs of all of them: after a run that was cut off, the rest of the steps come to what the whole comes to."""

    # (what is made behind it is made on the world of a run)
    UNTIL = "script"
    ASKED = ("counts", "sent I", "sent M", "told I", "told M")

    def questions(self, at):
        return self.ASKED if at else []

    def is_step(self, at):
        return self.calls[at].startswith(("I ", "M "))

    def rest(self, at):
        """The lines behind, up to the next run of all steps: the step that was made again would come twice there."""
        last = next((it for it in range(at + 1, len(self.calls)) if self.calls[it] == "run"), len(self.calls))
        return [*zip(self.calls[at + 1 : last], self.answers[at + 1 : last])]

    def made_again(self, number, at, answer):
        if self.calls[at] != "run" or WANTS.match(answer[-1]):
            return super().made_again(number, at, answer)
        return self.run_on(number, at, answer)

    def run_on(self, number, at, answer):
        """A run that was cut off: the steps that it made, what stands after them, and the rest one by one."""
        steps = [it for it in range(at) if self.is_step(it)]
        found = re.match(r"done (\d+)$", answer[-1])
        done = int(found[1]) if found else -1
        if not 0 <= done < len(steps) or answer[:-1] != [line for it in steps[:done] for line in self.answers[it]]:
            raise Wrong(f"allocation {number}: the run is answered {answer[-2:]!r}")
        asked = zip(self.ASKED, self.stood[steps[done]])
        rest = [(self.calls[it], self.answers[it]) for it in steps[done:]]
        behind = zip(self.ASKED, self.stood[at + 1])
        self.compare(number, at, answer, [*asked, *rest, *behind], self.rest(at))
        return "gone on with"


class Book(Cases):
    """A book, which has to be loaded again after a save that was refused memory: its facts are those before, or those with the batch."""

    def questions(self, at):
        return ["load", "count"] if "load" in self.calls[:at] else []

    def driver_wants(self, at):
        return ["failed"] if self.calls[at].startswith(("folder ", "remove_folder ")) else None

    def wanted(self):
        """Each kind of call on a book that takes memory."""
        return self.of_kinds(("load", "open", "save_next", "save_batch"))

    def behind(self, at, _answer):
        call = self.calls[at]
        if call == "open":
            return [([it for it in self.calls[:at] if it.startswith("open_file")][-1], ["ok"]), (call, self.answers[at])]
        if call == "load":
            return [("count", ["none"]), (call, self.answers[at])]
        if call.startswith("open_file"):
            # (the book before is closed first)
            return [(call, self.answers[at])]
        return super().behind(at, _answer)

    def made_again(self, number, at, answer):
        call = self.calls[at]
        if not call.startswith("save_") or not WANTS.match(answer[-1]):
            return super().made_again(number, at, answer)
        wants_loading = [("count", ["none"]), (call, ["NotLoaded"])]
        before, after = ([*zip(("load", "count"), self.stood[it])] for it in (at, at + 1))
        taken = (call, [f"NotNext {int(self.stood[at + 1][1][0]) + 1}"])
        found = (call, self.answers[at])
        # (where the driver wanted the memory, for the facts themselves, the book is still loaded)
        ways = {"saved again": [*wants_loading, *before, found], "saved all the same": [*wants_loading, *after, taken], "ended": [before[1], found]}
        return self.one_way(number, at, answer, ways, self.rest(at))


class Offices(Cases):
    """Offices: a call is made again; so is a turn that saves, unless its desk is halted since the book refused it."""

    # (a wait for a fact that no turn saved would have no end; so what a wait answers without memory is not tried)
    LEFT_OUT = ("wait_saved",)
    EACH = ("open", "fact", "contract", "notice", "submit", "close", "resend", "deliver", "halt", "join_lives", "reconcile")
    SIDES = ("I", "later", "M")

    def questions(self, at):
        return [line for side in self.SIDES for line in self.asked_of(side, self.calls[:at])]

    def asked_of(self, side, made):
        """What is asked of an office, and of its book: how many calls each seat noted, and what it was given; of one that is settled
        all entries, and which facts are saved there."""
        made = [it for it in made if it.startswith(f"{side} ") or (it.startswith("later ") and "join_lives" in made)]
        opened = next((it for it in made if it.startswith(f"{side} open ")), None)
        book = [f"{side} load"] if f"{side} book" in made else []
        if not opened:
            return book
        if f"{side} settle" in made:
            # (no office has as many entries or facts as twice its lines)
            places = range(1, 2 * len(made) + 1)
            return [*book, f"{side} entries", *(f"{side} {word} {it}" for word in ("entry", "acknowledged") for it in places)]
        seats = range(1, int(opened.split()[-1]) + 1)
        return [*book, *(f"{side} {word} {seat}" for word in ("notes", "receipts") for seat in seats)]

    def stands(self, at, question):
        """What a question is answered with all memory before this call."""
        return self.stood[at][self.questions(at).index(question)]

    def wanted(self):
        """Of each kind of call one. (A fact is read by the driver. A halt takes no memory but for its note, and that at some places
        alone. To reconcile, what a side let out is copied: nothing is let out where no turn saves.)"""
        made = self.of_kinds({*self.EACH, "save_turn"} - {"fact", "halt"})
        if "save_turn" not in made:
            made.pop("reconcile", None)
        return made

    def made_again(self, number, at, answer):
        side, _, call = self.calls[at].partition(" ")
        if answer == ["no such call"]:
            return self.made_by_driver(number, at, answer)
        self.wants_alone(number, at, answer)
        if call.startswith("open ") or self.calls[at] == "join_lives":
            gone = [self.calls[at], "I entries", "later entries"] if not call else [self.calls[at], f"{side} notes 1", f"{side} settle"]
            self.compare(number, at, answer, [(it, ["no such call"]) for it in gone], [])
            return "gone"
        if call.startswith("save_turn"):
            return self.turned(number, at, answer)
        return super().made_again(number, at, answer)

    def made_by_driver(self, number, at, answer):
        """The driver of the cases wanted the memory: for a fact that it reads, or for a book that it opened by the call before and
        said nothing."""
        side, _, call = self.calls[at].partition(" ")
        if call.startswith("fact "):
            self.compare(number, at, answer, self.behind(at, answer), self.rest(at))
            return "read again"
        if call == "load" and self.calls[at - 1] == f"{side} book" and number <= self.up_to(at):
            again = [*zip(self.calls[at - 1 : at + 1], self.answers[at - 1 : at + 1])]
            self.compare(number, at, answer, again, self.rest(at))
            return "opened again"
        raise Wrong(f"allocation {number}: there is no call {self.calls[at][:60]!r}")

    def turned(self, number, at, answer):
        """A turn that saves. Where the book refused it the desk is halted, and the halt noted. Else the next turn answers what this one
        had to; it finds the facts in the book already where a mark was refused, and writes nothing."""
        side = self.calls[at].split()[0]
        load, notes = f"{side} load", f"{side} notes {self.calls[at].split()[-1]}"
        before, after = (load, self.stands(at, load)), (load, self.stands(at + 1, load))
        if answer[-1].startswith("Store "):
            halted = (self.calls[at], ["Halted"])
            noted = (notes, [str(int(self.stands(at, notes)[0]) + 1)])
            ways = {"halted": before, "halted, and saved": after}
            return self.one_way(number, at, answer, {way: [halted, noted, it, halted] for way, it in ways.items()}, [])
        turn = [(self.calls[at], self.answers[at]), *zip(self.questions(at + 1), self.stood[at + 1])]
        self.compare(number, at, answer, turn, self.rest(at))
        return self.one_way(number, at, answer, {"saved later": [before, *turn], "marked later": [after, *turn]}, self.rest(at))


def answers_of(calls, text):
    """The answers of these calls, which gi_cases prints below each."""
    lines, at, found = text.splitlines(), 0, []
    for call in calls:
        if at >= len(lines) or lines[at] != call:
            raise Wrong(f"{call[:60]!r} is not printed again")
        at, answer = at + 1, []
        while at < len(lines) and lines[at].startswith("= "):
            answer.append(lines[at][2:])
            at += 1
        found.append(answer)
    return found
