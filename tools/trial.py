"""Trials of crates with changes: a copy of the crate that is checked, and the libraries below."""
import contextlib
import os
import re
import shutil
import subprocess
import tempfile
import time

import kit
from edits import functions_of, placed, text_of


# What a check that takes holes says of a function that is proved under the contracts of what it calls: no other function has a hole.
PROVED_OVER_HOLES = re.compile(r"^(fn \S+: )(no holes|depends on a hole in [^;\n]*?)(, may wait)?$", re.M)


class Trial:
    """A copy of a crate in which edits are put in place and checked by so many jobs."""

    def __init__(self, crate, room, jobs=1):
        self.crate, self.room, self.jobs = crate, room, jobs
        self.functions = {it.name: it for it in functions_of(crate) if not it.is_of_trait}

    def said(self, changes, functions, has_holes, copies=(), unanswered=()):
        """What a check of these functions says where the crate has these changes, and for the functions of which there is a copy
        also a copy of what helps to prove them: each function's verdict, or None where the check did not come to any, and what it
        printed. With holes all other functions, the methods of traits aside, have one in the place of their proof and no body, so that
        what these call costs nothing, and a function is proved where it is under the contracts of what it calls. The answers that are
        kept for goals of the functions of these paths, or of their copies, are left out."""
        for part in kit.rtlib.PARTS:
            shutil.rmtree(f"{self.room}/{part}", ignore_errors=True)
            if os.path.isdir(f"{self.crate.folder}/{part}"):
                shutil.copytree(f"{self.crate.folder}/{part}", f"{self.room}/{part}")
        others = {name: it for name, it in self.functions.items() if name not in functions} if has_holes else {}
        changes = [*changes, *(it for other in others.values() for it in self.without_body(other, changes))]
        for path in {it[0] for it in changes}:
            text = placed(text_of(f"{self.crate.folder}/{path}"), [it for it in changes if it[0] == path])
            with open(f"{self.room}/{path}", "w", encoding="utf-8") as file:
                file.write(text)
        for parts, name in copies:
            self.copy_proof(parts, name)
        for parts in unanswered:
            with contextlib.suppress(FileNotFoundError):
                os.remove(f"{self.room}/{'/'.join(['proofs', *parts])}/Answers.antt")
        for other in others.values():
            self.put_hole(other.parts)
        only = [word for it in sorted(functions) for word in ("--only", it)]
        words = [kit.rtlib.RATTLE, "check", *self.crate.words(["--jobs", str(self.jobs)], keeps=False)]
        printed = self.printed([*kit.rtlib.guarded(), *words, *only, *(["--allow-holes"] if has_holes else [])])
        holes = tuple(f"{'/'.join(['proofs', *it.parts])}/Proof.antt" for it in others.values())
        printed = "\n".join(it for it in printed.split("\n") if not it.removeprefix("./").startswith(holes))
        # without that last line the check did not reach the proofs
        if not re.search(r"^only=\d+ (proved|holes)=\d+$", printed, re.M) or kit.rtlib.STALE.search(printed):
            return None, printed
        printed = PROVED_OVER_HOLES.sub(r"\1proved\3", printed)
        return {name: verdict for name, verdict in re.findall(r"^fn (\S+): (.*)", printed, re.M) if name not in others}, printed

    def without_body(self, function, changes):
        """The change that leaves nothing of a function's body but a loop without an end, so that nothing is made of its code and it
        calls nothing; none where another change is in it."""
        if not function.body:
            return []
        start, end = function.body
        is_free = all(it[0] != function.path or it[2] <= start or it[1] >= end for it in changes)
        return [(function.path, start, end, "loop {}\n")] if is_free else []

    def put_hole(self, parts):
        """Puts a hole in the place of a function's proof: what the checker's --start writes for one that it does not cover."""
        folder, path, name = f"{self.room}/{'/'.join(['proofs', *parts])}", ".".join(parts), parts[-1]
        os.makedirs(folder, exist_ok=True)
        for file in os.listdir(folder):
            if file in ("Answers.antt", "Invariants.antt"):
                os.remove(f"{folder}/{file}")
        with open(f"{folder}/Proof.antt", "w", encoding="utf-8") as file:
            file.write(f"use Rattle.{self.crate.name}.proofs.{path}.Statement.{{statement}}\n\n")
            file.write(f"pub {name}_spec : {{M : Type 1}} → statement M\n{name}_spec 𝓤 𝓛 𝓜 𝓡 w = ?\n")

    def printed(self, words):
        """What the check prints. Where a function is not proved the checker would run once more, about as long as the proofs took, to
        offer the goals that are left. For that it makes a folder in TMPDIR, and without one it gives up: so a file stands there as
        soon as the check writes that the proofs were tried."""
        folder, times = f"{self.room}/scratch", f"{self.room}/times"
        os.makedirs(folder)
        open(times, "w").close()
        with tempfile.TemporaryFile("w+", errors="replace") as out, tempfile.TemporaryFile("w+", errors="replace") as faults:
            how = {"stdin": subprocess.DEVNULL, "stdout": out, "stderr": faults, "cwd": self.room}
            check = subprocess.Popen([*words, "--stage-times", times], env={**os.environ, "TMPDIR": folder}, **how)
            while check.poll() is None and "stage session " not in (kit.rtlib.text_of(times) or ""):
                time.sleep(0.2)
            os.rename(folder, f"{folder}-aside")
            open(folder, "w").close()
            check.wait()
            os.remove(folder)
            shutil.rmtree(f"{folder}-aside")
            for it in out, faults:
                it.seek(0)
            return out.read() + faults.read()

    def copy_proof(self, parts, name):
        """Copies the files that help to prove a function, for the copy of it under that name."""
        own, others, names = "/".join(parts), "/".join([*parts[:-1], name]), "\\.".join(parts)
        if os.path.isdir(f"{self.room}/proofs/{own}"):
            shutil.copytree(f"{self.room}/proofs/{own}", f"{self.room}/proofs/{others}")
        for at, _, files in os.walk(f"{self.room}/proofs/{others}"):
            for file in files:
                text = re.sub(rf"\bproofs\.{names}\b", ".".join(["proofs", *parts[:-1], name]), text_of(f"{at}/{file}"))
                with open(f"{at}/{file}", "w", encoding="utf-8") as it:
                    it.write(text)


def is_of_ci(crate):
    """Whether an rt ci left this library, which fits only others that it left, and the crate's files are no newer than it: check gives
    it the time at which that rt ci began."""
    if not os.path.isdir(crate.rlib) or os.path.isfile(f"{os.path.dirname(crate.rlib)}/stamp"):
        return False
    parts = [f"{crate.folder}/{it}" for it in kit.rtlib.PARTS]
    files = [f"{at}/{name}" for part in parts for at, _, names in os.walk(part) for name in (".", *names)]
    made = os.stat(crate.rlib).st_mtime
    return all(os.stat(it).st_mtime <= made for it in [f"{crate.folder}/../../crates.txt", *files])


def are_ready(crates, tried, is_after_ci):
    """Whether the libraries below these crates are there, built where they have to be; --after-ci takes those that an rt ci left."""
    kit.rtlib.guarded()
    kit.rtlib.lock(list(crates.values()))
    below = [it for it in crates.values() if any(it in crate.below() for crate in tried)]
    if is_after_ci and all(map(is_of_ci, below)):
        return True
    kit.use_own(crates.values())
    return kit.build_libraries([it for it in below if not kit.is_built(it)])


def counted(passed, failed):
    """Prints the last line, and gives the status: nothing that was tried is no success."""
    print(f"{passed} passed, {failed} failed")
    return 1 if failed or not passed else 0
