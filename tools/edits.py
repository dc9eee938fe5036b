"""The edits of wrong bodies: what each changes, and the functions in which that stands. Each text that an edit looks for stands once
in the file as it is, before any change."""
import functools
import os
import re

FUNCTION = re.compile(r"^( *)(?:pub(?:\(\w+\))? )?(?:const )?fn (\w+)")
CLAUSE = r"(requires|ensures|ghost|invariant|decreases)\b"
# (a bound may name an associated type, as `impl<R: Role<Received: Send>>`)
OWNER = re.compile(r"^(?:impl(?:<(?:[^<>]|<[^<>]*>)*>)?|(?:pub(?:\(\w+\))? )?trait) (.*?) *\{?$")


CLOSURE = re.compile(r"^ *(?:\S.*[ (&])?(?:move )?&?(?:move )?\|[^|]*\|(?: -> .*)?$")


def text_of(file):
    with open(file, encoding="utf-8") as it:
        return it.read()


def depth_of(line):
    return len(line) - len(line.lstrip(" "))


def outline(text):
    """What of a file's text the crates above see: no line that is a comment or empty, and of a function no body. Files have the layout of
    rt fmt."""
    kept, lines, at = [], [it for it in text.split("\n") if it.strip() and not it.lstrip().startswith("//")], 0
    while at < len(lines):
        found = FUNCTION.match(lines[at])
        if found:
            opened = re.compile(rf"^{found[1]}(?! ).*[{{}}]$|;$")
            end = next(it for it in range(at, len(lines)) if opened.search(lines[it]))
            kept += lines[at : end + 1]
            at = lines.index(f"{found[1]}}}", end) if lines[end].endswith("{") else end + 1
        else:
            kept.append(lines[at])
            at += 1
    return "\n".join(kept)


def module_of(path):
    parts = path.removeprefix("src/").removesuffix(".rt").split("/")
    return [] if parts in (["lib"], ["main"]) else parts


class Function:
    """A function of a crate's file: its name as a check prints it, where in the file it starts and ends, and the lines of its body. A
    copy of it can stand under it, with its lines `#[tactic(..)]`, where it is no trait's and has no other attribute, since what is
    proved of it is then of its own text alone."""

    def __init__(self, crate, path, text, at):
        lines = text[:at].split("\n")
        row = next((row for row in range(len(lines) - 1, -1, -1) if FUNCTION.match(lines[row]) or lines[row].startswith("}")), None)
        found = FUNCTION.match(lines[row]) if row is not None else None
        if not found:
            raise LookupError("no function stands there")
        self.path, self.own_name, owner = path, found[2], []
        header = next((it for it in map(OWNER.match, reversed(lines[:row])) if it), None) if found[1] else None
        if header:
            owner = owner_of(crate, path, header[1])
        self.parts = [*(owner or module_of(path)), self.own_name]
        self.name = "::".join([crate.name, *self.parts])
        first = next(it for it in range(row, -1, -1) if it == 0 or not lines[it - 1].strip().startswith("#[tactic("))
        self.start = sum(len(it) + 1 for it in lines[:first])
        # the line with which the body begins, or with which the function ends
        opened = re.compile(rf"^{found[1]}(?! ).*[{{}}]$|;$", re.M).search(text, len("\n".join(lines[:row])))
        self.body, self.end = None, opened.end() + 1
        if opened[0].endswith("{"):
            self.end = text.index(f"\n{found[1]}}}\n", opened.end()) + len(f"\n{found[1]}}}\n")
            self.body = opened.end() + 1, self.end - len(f"{found[1]}}}\n")
        self.is_of_trait = header is not None and (" for " in header[1] or "trait " in header[0])
        has_attribute = first > 0 and lines[first - 1].strip().startswith("#[")
        files = f"{crate.folder}/proofs/{'/'.join(self.parts)}"
        self.has_files, has_own_theorem = os.path.isdir(files), os.path.exists(f"{files}/Proof.antt")
        self.can_be_copied = not (self.is_of_trait or has_attribute or has_own_theorem or not self.body)
        self.code = text[slice(*self.body)] if self.body else ""
        self.names_itself = re.search(rf"\b{self.own_name}\b", self.code) is not None
        self.has_promise = bool(self.code) and re.search(r"^ +ensures\b", text[self.start : self.body[0]], re.M) is not None

    def copy(self, text, name, changes):
        """What puts a copy of the function of that name and with these changes under it: a change, and the copy's name."""
        copied = re.sub(rf"\bfn {self.own_name}\b", f"fn {name}", placed(text, changes, self.start, self.end), count=1)
        return (self.path, self.end, self.end, f"\n{copied}"), "::".join([*self.name.split("::")[:-1], name])


def functions_of(crate):
    """The functions of a crate's files."""
    found = []
    for at, _, names in os.walk(f"{crate.folder}/src"):
        for name in names:
            text, path = text_of(f"{at}/{name}"), os.path.relpath(f"{at}/{name}", crate.folder)
            starts = re.finditer(FUNCTION.pattern, text, re.M)
            found += [Function(crate, path, text, it.end()) for it in starts if name.endswith(".rt")]
    return found


@functools.cache
def owner_of(crate, path, owner):
    """The path of an impl: its type's own for methods, and for a trait's the module's, with the trait's name at the type's."""
    plain = lambda it: "".join(word[0].upper() + word[1:] for word in re.findall(r"\w+", re.sub(r"'\w+|\w+::", "", it)))
    trait, is_of_trait, kind = owner.partition(" for ")
    if is_of_trait:
        return [*module_of(path), plain(kind.partition("<")[0]) + plain(trait)]
    kind = re.match(r"\w+", owner)[0]
    for at, _, names in os.walk(f"{crate.folder}/src"):
        for name in names:
            file = f"{at}/{name}"
            if re.search(rf"^(?:pub(?:\(\w+\))? )?(?:struct|enum|trait) {kind}\b", text_of(file), re.M):
                return [*module_of(os.path.relpath(file, crate.folder)), kind]
    return [*module_of(path), kind]


class Edit:
    """A wrong body: in each place the file, where its text starts and ends, and the new text; the functions whose contracts have to
    refuse it; whether it reaches outside of their bodies, where it could break other functions too, and so is tried alone; whether
    one of these functions has waited for another edit's, so that it was not judged; whether it is tried with all proofs; whether
    the answers that are kept for the functions' goals are left out; and whether it stands in a closure with a clause of its own."""

    def __init__(self, crate, folder, name):
        self.crate, self.name, self.changes, self.functions = crate, name.removesuffix(".edit"), [], {}
        self.file = f"{folder}/{name}"
        self.is_alone, self.has_waited, self.is_whole, self.by, path, old, text = False, False, False, None, "", "", ""
        self.lacks_answers, self.is_in_closure = False, False
        for line in text_of(self.file).split("\n"):
            word, _, rest = line.partition(":")
            rest = rest.removeprefix(" ")
            if word == "by":
                self.by = rest
            elif word == "file":
                path = rest
                if not path.startswith("src/") or os.path.normpath(path) != path:
                    raise ValueError(f"it changes {path}, and no code")
                text = text_of(f"{crate.folder}/{path}")
            elif word == "old":
                old = rest
            elif word == "new" and old:
                self.change(path, text, old, rest)
                old = ""
            elif line:
                raise ValueError(f"it has the line {line[:60]}")
        if old:
            raise ValueError("an 'old:' line has no 'new:' line")
        if self.by:
            self.is_alone, self.is_whole, self.functions = True, True, {self.by: None}
        if not self.functions:
            raise ValueError("it changes no function, and no line 'by:' names one")

    def change(self, path, text, old, new):
        # (a text that is a whole line may be a part of others)
        found = [it.start() for it in re.finditer(re.escape(old), text)]
        lines = [it.start() for it in re.finditer(rf"^{re.escape(old)}$", text, re.M)] if len(found) > 1 else []
        if len(lines or found) != 1:
            raise ValueError(f"its old text is in {path} {len(found)} times, and not once")
        (start,) = lines or found
        line = text[text.rfind("\n", 0, start) + 1 :]
        if self.is_of_clause(text, start) or any(self.is_of_file(text, new[: it.start()]) for it in re.finditer(CLAUSE, new)):
            raise ValueError("it changes a clause, and no code")
        if re.match(r" *#!?\[tactic\b", line) or "#[tactic" in new:
            raise ValueError("it changes what proves a function, and no code")
        self.changes.append((path, start, start + len(old), new))
        if "fn " in old and new.endswith(old.lstrip()):
            # (it puts another function before the one of the old text, which it leaves)
            self.is_alone = True
            return
        try:
            function = Function(self.crate, path, text, start + len(old))
        except LookupError:
            self.is_alone = True
            return
        # (what old and new text begin with alike is not changed)
        first, (begin, end) = start + len(os.path.commonprefix([old, new])), function.body or (function.end, 0)
        # (a text behind a function is no part of it: the function that the line 'by:' names has to refuse the edit)
        is_behind = self.by and start >= function.end
        if not is_behind and (first < begin - 1 or start + len(old) > end):
            raise ValueError(f"it changes what stands outside of the body of {function.own_name}, and no code")
        if self.by:
            self.is_alone = True
            return
        self.functions[function.name] = function
        self.is_in_closure |= is_in_closure(text[: text.find("\n", start)].split("\n"))
        self.is_alone |= re.findall(r"\bfn (\w+)", old) != re.findall(r"\bfn (\w+)", new)

    @staticmethod
    def is_of_clause(text, start):
        """Whether the line there is a clause's, or stands deeper under such a line."""
        *above, line = text[: (text + "\n").index("\n", start)].split("\n")
        while not re.match(rf" *{CLAUSE}", line):
            depth = len(line) - len(line.lstrip(" "))
            while above and (not above[-1].strip() or len(above[-1]) - len(above[-1].lstrip(" ")) >= depth):
                above.pop()
            if not above:
                return False
            line = above.pop()
        return True

    @staticmethod
    def is_of_file(text, before):
        """Whether a clause behind this part of a new text is not one of a function that the edit brings."""
        names = re.findall(r"\bfn (\w+)", before)
        return not names or re.search(rf"\bfn {names[-1]}\b", text) is not None


def is_in_closure(lines):
    """Whether the last of these lines stands in a closure that has a clause of its own: its block begins on a line of its own, behind the
    clauses, which stand deeper than it and than the closure's head above them."""
    depth = depth_of(lines[-1]) + 1
    for at in range(len(lines) - 1, 0, -1):
        line = lines[at]
        if not line.strip() or depth_of(line) >= depth:
            continue
        depth = depth_of(line)
        if FUNCTION.match(line):
            return False
        if line.lstrip().startswith("{") and depth_of(lines[at - 1]) > depth:
            head = next(it for it in reversed(lines[:at]) if it.strip() and depth_of(it) <= depth)
            if CLOSURE.match(head):
                return True
    return False


def placed(text, changes, start=0, end=None):
    """The text from start to end with these changes, whose places are those in the whole text."""
    end = len(text) if end is None else end
    for _, first, last, new in sorted(changes, key=lambda it: it[1], reverse=True):
        text = text[:first] + new + text[last:]
        end += len(new) - (last - first)
    return text[start:end]
