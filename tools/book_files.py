"""The files of a book, and its facts as another SQLite reads them from a copy: that takes the log of what it closes away, and of a file that is
half made the log alone tells that."""
import contextlib
import os
import shutil
import sqlite3
import tempfile

SIDES = ("I", "M")
# what a book's files have behind its name
ENDS = ("", "-wal", "-head")
TABLES = """
CREATE TABLE book (id INTEGER PRIMARY KEY, version INTEGER NOT NULL);
CREATE TABLE facts (n INTEGER PRIMARY KEY, body TEXT NOT NULL);
INSERT INTO book VALUES (1, 1);
"""


class Wrong(Exception):
    """What no run may do, and no book may be."""


def book_of(folder, side):
    """The name of a side's book, by the prefix `day`."""
    return f"{folder}/day-{side}.db"


@contextlib.contextmanager
def opened(book):
    """A copy of the book in another SQLite."""
    with tempfile.TemporaryDirectory() as folder:
        for end in ENDS:
            if os.path.exists(book + end):
                shutil.copy(book + end, folder)
        with contextlib.closing(sqlite3.connect(f"{folder}/{os.path.basename(book)}")) as rows:
            yield rows


def facts(book):
    """The facts of a book, in order; None where the file is no book yet, or not there: a run that was killed before it had made the
    tables leaves none, or half of a database."""
    if not os.path.exists(book):
        return None
    with opened(book) as rows:
        try:
            if len(rows.execute("SELECT 1 FROM sqlite_master WHERE name IN ('book', 'facts')").fetchall()) < 2:
                return None
        except sqlite3.DatabaseError:
            return None
        found = rows.execute(
            "SELECT n + key, value FROM facts, json_each(CASE json_type(body) WHEN 'array' THEN body ELSE json_array(json(body)) END)"
            " ORDER BY n + key"
        ).fetchall()
    if [n for n, _ in found] != list(range(1, len(found) + 1)):
        raise Wrong(f"the facts of {os.path.basename(book)} are not numbered from 1: {[n for n, _ in found]}")
    return [fact for _, fact in found]


def both_facts(folder):
    return {side: facts(book_of(folder, side)) for side in SIDES}


def make_books(folder, held):
    """Books of these facts, one a row, made by another SQLite than the program's; none for None."""
    for side, its_facts in held.items():
        if its_facts is not None:
            with contextlib.closing(sqlite3.connect(book_of(folder, side))) as rows:
                rows.executescript(TABLES)
                rows.executemany("INSERT INTO facts (body) VALUES (?)", [(it,) for it in its_facts])
                rows.commit()
