#!/usr/bin/env python3
"""Asks SQLite for the rows of the selects in scripts/selects.txt, and tells each whose answer differs there.

    python3 tools/ask_rows.py              # at the top of the repository; the module sqlite3 has the store

Asked is every line `rows SELECT` whose answer is rows; its text becomes one of SQL word by word. SQLite has 0 and 1 for false and true.
A select without an order is compared without one. What is refused is not asked; SQLite takes no `having` without an aggregate.
"""

import re
import sqlite3
import sys

from script_cases import cases

TOKEN = re.compile(r"""\s*(x'[0-9A-Fa-f]*'|'(?:[^']|'')*'|"(?:[^"]|"")*"|[A-Za-z_]\w*|\d+|==|!=|<=|>=|\|\||.)""")
SIGNS = {"==": "=", "!=": "<>", "ilike": "like"}


def sql(text):
    """The select in SQL."""
    words = TOKEN.findall(text)
    out = []
    for place, word in enumerate(words):
        behind = words[place + 1] if place + 1 < len(words) else ""
        if word in ("==", "!=") and behind == "null":
            out.append("is" if word == "==" else "is not")
        elif word == "(" and place and words[place - 1] == "exists":
            out.append("(select 1 from")
        elif word == "offset" and "limit" not in words:
            out.append("limit -1 offset")
        else:
            out.append(SIGNS.get(word, word))
    return "select " + " ".join(out).replace(" . ", ".")


def values(text):
    """The values between the parentheses of a row, booleans as 0 and 1."""
    found = re.findall(r"x'[0-9a-f]*'|'(?:[^']|'')*'|null|true|false|-?\d+", text)
    read = {"null": None, "true": 1, "false": 0}
    return tuple(
        read[v] if v in read
        else bytes.fromhex(v[2:-1]) if v.startswith("x'")
        else v[1:-1].replace("''", "'") if v.startswith("'")
        else int(v)
        for v in found
    )


def rows_of(answer):
    """The rows that a line answers; none where it is refused."""
    if not answer or not re.fullmatch(r"rows \d+", answer[-1]):
        return None
    return [values(line) for line in answer[:-1]]


def main():
    script = cases("selects.txt")[0].lines
    database = sqlite3.connect(":memory:")
    made, tables, asked, bad, is_over = {}, {}, 0, 0, False
    for number, (line, answer) in enumerate(script, 1):
        is_over = is_over or line.startswith("# a failed flush")
        if m := re.match(r"table (\w+)", line):
            columns = []
            tables[m[1]] = columns
        elif line.startswith("  ") and not line.startswith("  unique"):
            columns.append(line.strip())
        elif m := re.match(r"class (\w+) table (\w+)", line):
            database.execute(f"create table {m[2]} ({', '.join(tables[m[2]])})")
            tables[m[1]] = m[2]
        elif m := re.match(r"(\w+) = new (\w+)(.*)", line):
            cells = re.findall(r"(\w+)=('(?:[^']|'')*'|[^,]+)", m[3])
            made[m[1]] = f"insert into {tables[m[2]]} ({', '.join(c for c, _ in cells)}) values ({', '.join(v for _, v in cells)})"
        elif m := re.match(r"add (\w+)", line):
            if not is_over:
                database.execute(made[m[1]])
        elif line.startswith("rows ") and rows_of(answer) is not None:
            text, wanted = sql(line[5:]), rows_of(answer)
            asked += 1
            try:
                found = database.execute(text).fetchall()
            except sqlite3.OperationalError as refusal:
                print(f"line {number}: SQLite: {refusal}")
                continue
            if "order by" not in line:
                found, wanted = sorted(found, key=repr), sorted(wanted, key=repr)
            if found != wanted:
                bad += 1
                print(f"line {number}: {text}\n  answer {wanted}\n  SQLite {found}")
    print(f"{asked} selects asked of SQLite {sqlite3.sqlite_version}, {bad} differ")
    return bad > 0


if __name__ == "__main__":
    sys.exit(main())
