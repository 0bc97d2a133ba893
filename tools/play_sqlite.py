#!/usr/bin/env python3
"""Plays the statements on many rows of crates/keeper_tests on SQLite, and tells each whose answer differs from the expected one.

    python3 tools/play_sqlite.py           # at the top of the repository; the module sqlite3 has the store

The lines of stdin behind the heading "Statements on many rows" are played call by call, up to the next heading. What SQLite does
otherwise stands behind a heading of its own there, and is not asked.
"""

import pathlib
import sqlite3
import sys

FOLDER = pathlib.Path(__file__).resolve().parent.parent / "crates" / "keeper_tests"
HEADING = "# Statements on many rows"
NAMES = {"0": "a", "1": "b"}
TABLES = {
    "0": "create table a (id integer not null primary key, n integer not null unique)",
    "1": "create table b (id integer not null primary key, n integer references a (id))",
}
# what SQLite says, and the letter of the refusal
REFUSALS = [
    ("no such table", "T"),
    ("NOT NULL", "N"),
    ("UNIQUE constraint failed: a.id", "P"),
    ("UNIQUE constraint failed: b.id", "P"),
    ("UNIQUE", "U"),
    ("FOREIGN KEY", "F"),
]


def value(word):
    return "null" if word == "_" else str(int(word))


def above(words):
    """The rows above a bound, all where there is none."""
    return f" where n > {int(words[0])}" if words else ""


def sql(kind, table, words):
    """The statement in SQL."""
    name = NAMES[table]
    if kind == "put":
        return f"insert into {name} (id, n) values ({value(words[0])}, {value(words[1])})"
    if kind == "raise":
        return f"update {name} set n = n + {int(words[0])}{above(words[1:])}"
    if kind == "assign":
        return f"update {name} set n = {value(words[0])}{above(words[1:])}"
    if kind == "clear":
        return f"delete from {name}{above(words)}"
    other = NAMES[words[0]]
    return f"delete from {name} where exists (select 1 from {other} where {other}.n = {name}.id)"


def sent(store, text):
    """How many rows the statement takes, or the letter of what refuses it."""
    try:
        return str(store.execute(text).rowcount)
    except sqlite3.Error as error:
        return next((letter for said, letter in REFUSALS if said in str(error)), str(error))


def answer(store, depth, word, words):
    """What SQLite answers to a call at this depth, and the depth then."""
    if word == "keeper":
        return ".", depth
    if word == "create":
        store.execute(TABLES[words[0]])
        return "y", depth
    if word == "count":
        return str(store.execute(f"select count(*) from {NAMES[words[0]]}").fetchone()[0]), depth
    if word == "savepoint":
        store.execute(f"savepoint s{depth}")
        return ".", depth + 1
    if word == "rollback-to":
        store.execute(f"rollback to s{words[0]}")
        store.execute(f"release s{words[0]}")
        return ".", int(words[0])
    if word in ("begin", "commit", "rollback"):
        store.execute(word)
        return ".", int(word == "begin")
    return ("?" if depth == 0 else sent(store, sql(word, words[0], words[1:]))), depth


def calls():
    """The calls behind the heading, each with its expected answer."""
    lines = (FOLDER / "stdin").read_text(encoding="utf-8").splitlines()
    wanted = (FOLDER / "stdout").read_text(encoding="utf-8").splitlines()
    begin = next(place for place, line in enumerate(lines) if line.startswith(HEADING)) + 1
    end = next(place for place in range(begin, len(lines)) if lines[place].startswith("#"))
    return list(zip(lines[begin:end], wanted[begin:end]))


def main():
    store = sqlite3.connect(":memory:", isolation_level=None)
    store.execute("pragma foreign_keys = on")
    depth, wrong, played = 0, 0, calls()
    for line, wanted in played:
        word, *words = line.split()
        found, depth = answer(store, depth, word, words)
        if found != wanted:
            wrong += 1
            print(f"{line}: SQLite answers {found}, the table has {wanted}")
    print(f"{len(played)} calls, {wrong} differ")
    return 1 if wrong else 0


if __name__ == "__main__":
    sys.exit(main())
