#!/usr/bin/env python3
"""Has SQLite do the statements that the cases of scripts/ echo, and tells each that it answers otherwise.

    python3 tools/ask_sqlite.py            # at the top of the repository; the module sqlite3 has the store

Each statement is done with the values that stand behind it, in the order of the script. Compared are the rows of a select, how many rows
a bulk statement takes, the tables of a `dump`, and that what is refused for the rows that it would leave is refused. A select without an
order is compared without one. SQLite goes on where a result is outside 64 bits: what such a line sent is undone, and not compared.
"""

import re
import sqlite3
import sys

from script_cases import cases, shown_values, statements

SCOPE = re.compile(r"(BEGIN|COMMIT|ROLLBACK|SAVEPOINT|RELEASE)\b")


def value(shown):
    """A value, 0 and 1 for those of truth."""
    known = {"null": None, "true": 1, "false": 0}
    if shown in known:
        return known[shown]
    if shown.startswith("x'"):
        return bytes.fromhex(shown[2:-1])
    return shown[1:-1].replace("''", "'") if shown.startswith("'") else int(shown)


def row(line):
    return tuple(value(shown) for shown in shown_values(line))


def is_asked(case):
    """Whether a run of the case echoes what SQLite is sent."""
    return case.lines and any("--echo" in words and not any(word.startswith(("--dialect", "--store")) for word in words) for words in case.words)


class Asking:
    """A store, and how much was asked of it."""

    def __init__(self):
        self.counts = {"statements": 0, "answers": 0, "differ": 0}

    def play(self, case):
        """Asks the lines of a case. What the close at its end sends stands behind the answer of the last line: it is left out."""
        self.store = sqlite3.connect(":memory:", isolation_level=None)
        self.store.execute("pragma foreign_keys = on")
        if case.lines[-1][1][-1:] == ["sql> ROLLBACK"]:
            case.lines[-1][1].pop()
        for line, answers in case.lines:
            self.ask(case, line, answers)

    def send(self, text, values):
        """What SQLite answers: a cursor, or its refusal, after which the store is as before."""
        self.counts["statements"] += 1
        inside = self.store.in_transaction and not SCOPE.match(text)
        if inside:
            self.store.execute("savepoint asked")
        try:
            answer = self.store.execute(text, values)
            rows, count = answer.fetchall(), answer.rowcount
        except (sqlite3.Error, OverflowError) as refusal:
            rows, count = refusal, -1
            if inside:
                self.store.execute("rollback to asked")
        return rows, count, inside

    def compare(self, case, line, found, wanted):
        self.counts["answers"] += 1
        if found != wanted:
            self.counts["differ"] += 1
            print(f"{case.name}: {line}\n  here   {wanted!r}\n  SQLite {found!r}")

    def ask(self, case, line, answers):
        """Sends what the line sent, and compares what it answers."""
        refused = next((answer for answer in answers if answer.startswith("error ")), None)
        rows, count, failed = [], -1, False
        for text, shown in statements([answer for answer in answers if answer.startswith(("sql> ", "par> "))]):
            rows, count, inside = self.send(text, [value(it) for it in shown])
            failed = failed or isinstance(rows, Exception)
            if inside:
                if refused and "DataError" in refused:
                    self.store.execute("rollback to asked")
                self.store.execute("release asked")
            last = text
        if refused:
            if "IntegrityError" in refused:
                self.compare(case, line, "refused" if failed else "done", "refused")
        elif failed:
            self.compare(case, line, rows, answers)
        elif line.startswith("rows "):
            wanted = [row(answer) for answer in answers if answer.startswith("(")]
            ordered = "ORDER BY" in last
            self.compare(case, line, rows if ordered else sorted(rows, key=repr), wanted if ordered else sorted(wanted, key=repr))
        elif line.startswith("bulk "):
            self.compare(case, line, f"rows {count}", answers[-1])
        elif line == "dump":
            self.compare_tables(case, answers)

    def compare_tables(self, case, answers):
        """Compares the tables that a `dump` answers."""
        tables = {}
        for answer in answers:
            if head := re.fullmatch(r"table (\S+) \(.*\)", answer):
                rows = tables.setdefault(head[1], [])
            elif answer.startswith("  ("):
                rows.append(row(answer))
        for name, wanted in tables.items():
            found = self.store.execute(f'select * from "{name}"').fetchall()
            self.compare(case, f"dump of {name}", sorted(found, key=repr), sorted(wanted, key=repr))


def main():
    asking = Asking()
    asked = [case for case in cases() if is_asked(case)]
    for case in asked:
        asking.play(case)
    counts = asking.counts
    print(f"{len(asked)} cases, {counts['statements']} statements, {counts['answers']} answers, {counts['differ']} differ (SQLite {sqlite3.sqlite_version})")
    return 1 if counts["differ"] else 0


if __name__ == "__main__":
    sys.exit(main())
