#!/usr/bin/env python3
"""Plays scripts on SQLAlchemy 2.0 and tells where it answers otherwise than the program.

    python3 tools/ask_sqlalchemy.py PROGRAM SCRIPT..              # over SQLite in memory
    python3 tools/ask_sqlalchemy.py --url URL PROGRAM SCRIPT..    # over PostgreSQL; its schema `public` is cleared for each script
    python3 tools/ask_sqlalchemy.py PROGRAM scripts/*.txt         # the script of each case; its answers are not read

The module sqlalchemy, 2.0 or later, has to be there. PROGRAM is asked with the script on its standard input; behind the script
every link of every object is shown, and what is pending is committed and dumped, so that the last rows and links are compared.
PostgreSQL is given functions that make keys as this language does: one more than the greatest of the table.
A line that the program refuses for its words, names, kinds or forms is not played: SQLAlchemy has no such lines, or does them.
Every other line is done on one `Session`, and what it answers is compared with what the program answered: of errors the class,
and the kind where SQLAlchemy tells one; of warnings the class of the object and the link; of rows of a select the set. Texts of
statements are not compared, nor the answers of those that the store does not take. A script is played to its first difference,
which is told with its line. Behind all scripts the differences are counted by the form of the line and the two answers.
"""

import argparse
import collections
import itertools
import pathlib
import re
import subprocess
import warnings

import sqlalchemy as sa
from mapped_classes import NULL, ClassBlock, Mapped, NotAsked, Refused, TableBlock, Words, is_value, plain, quoted, value
from mapped_queries import Query
from script_cases import cases_of
from sqlalchemy import event, exc, orm
from sqlalchemy.orm import exc as orm_exc
from sqlalchemy.pool import StaticPool

# Words of selects and conditions that are no names.
SQL_WORDS = set(
    "and or not like ilike in between is exists null true false where order group having limit offset join left on from "
    "as by asc desc distinct count sum min max lower upper length coalesce set values insert update delete".split())
# Refusals that this language alone has: SQLAlchemy has no such lines, or takes them.
OWN = ("ScriptError", "TypeMismatch", "ArgumentError", "LimitReached", "CompileError")
OWN_KINDS = ("Unknown", "WrongKind", "NotGrouped", "DuplicateFrom", "NotConfigured", "Configured", "InTransaction",
             "KeyChange", "Discriminator", "BadOwner", "BadMember", "JoinedLimit")
# Lines that this language refuses while a failed flush waits for its rollback, though they may send nothing.
PENDING = ("add", "set", "append", "remove", "delete", "expunge", "expire", "show", "flush", "get", "related", "refresh")
OBJECT = re.compile(r"\b(\w+)@(\??\d+)")
MARK = "?"  # A line that no script may have: its refusal tells where the answers of the lines before it end.


class Untaken(Exception):
    """The store does not take a text that this language says."""


def told(it):
    """A value as it is written. Booleans are numbers, as SQLite answers them."""
    if it is None:
        return NULL
    if isinstance(it, (bytes, memoryview)):
        return "x'%s'" % bytes(it).hex()
    if isinstance(it, str):
        return "'%s'" % it.replace("'", "''")
    return str(int(it))


def row_told(row):
    return "(%s)" % ", ".join(told(it) for it in row)


# Statements


def name_of(word, dialect):
    """A word of a select as SQL has it: names in quotes, so that their letters stay as they are."""
    if word.startswith("x'"):
        return word if dialect == "sqlite" else "'\\x%s'::bytea" % word[2:-1]
    if re.match(r"[A-Za-z_]", word) and word not in SQL_WORDS:
        return quoted(word)
    return {"==": "=", "!=": "<>", "like": "like" if dialect == "sqlite" else "ilike",
            "ilike": "like" if dialect == "sqlite" else "ilike"}.get(word, word)


def sql(words, dialect):
    """Words of a select or of a condition in SQL."""
    out = []
    for place, word in enumerate(words):
        behind = words[place + 1] if place + 1 < len(words) else ""
        before = words[place - 1] if place else ""
        in_distinct = "is" in words[max(0, place - 3) : place]
        if word in ("==", "!=") and behind == NULL:
            out.append("is" if word == "==" else "is not")
        elif word == "is":
            is_same = behind == "not"
            names = ("is", "is not") if dialect == "sqlite" else ("is not distinct from", "is distinct from")
            out.append(names[0] if is_same else names[1])
        elif word == "not" and before == "is" or word in ("distinct", "from") and in_distinct:
            continue
        elif word == "(" and before == "exists":
            out.append("(select 1 from")
        elif word == ")" and before == "(" and words[place - 2] == "in":
            out.append(")" if dialect == "sqlite" else "select null where false)")
        elif "." in (before, behind) and re.match(r"[A-Za-z_]", word):
            out.append(quoted(word))
        elif word == "offset" and "limit" not in words:
            out.append("limit -1 offset" if dialect == "sqlite" else "offset")
        else:
            out.append(name_of(word, dialect))
    return " ".join(out).replace(" . ", ".").replace(":", "\\:")


# Lines


class Player:
    """One script on one session."""

    def __init__(self, url):
        self.url, self.blocks = url, []
        self.names, self.numbers, self.kept = {}, {}, []
        self.mapped = self.engine = self.session = self.connection = self.unordered = None

    def configure(self):
        """Makes the tables and the classes, and opens the session."""
        of = lambda word, form: [form(block) for block in self.blocks if Words(block[0]).peek() == word]
        is_file = self.url.startswith("sqlite")
        self.mapped = Mapped(of("table", TableBlock), of("class", ClassBlock), not is_file)
        options = {"connect_args": {"check_same_thread": False}} if is_file else {"use_insertmanyvalues": False}
        self.engine = sa.create_engine(self.url, poolclass=StaticPool, **options)

        @event.listens_for(self.engine, "connect")
        def connect(connection, _):
            self.connection = connection
            if is_file:
                connection.isolation_level = None
                connection.execute("pragma foreign_keys = on")

        if is_file:
            event.listen(self.engine, "begin", lambda connection: connection.exec_driver_sql("begin"))
        with self.engine.connect() as connection:
            if not is_file:
                connection.execute(sa.text("drop schema public cascade"))
                connection.execute(sa.text("create schema public"))
                for text in self.mapped.key_makers:
                    connection.exec_driver_sql(text.replace("%", "%%"))
                connection.commit()
        self.session = orm.Session(self.engine)
        event.listen(self.session, "loaded_as_persistent", lambda _, it: self.kept.append(it))

    def end(self):
        """Lets go of what the script made."""
        if self.session is not None:
            self.session.close()
            self.engine.dispose()
        orm.clear_mappers()

    def object(self, words):
        it = self.names[words.name()]
        if words.takes("["):
            it = it[int(words.take())]
            words.take()
        return it

    def member(self, words):
        owner = self.object(words)
        words.take()
        return owner, words.name()

    def named(self, it):
        if it is None:
            return NULL
        if isinstance(it, list):
            return "[%s]" % ", ".join(self.named(one) for one in it)
        return "%s@%s" % (type(it).__name__, self.numbers.get(id(it), "?%d" % self.place_of(it)))

    def order(self, mine, line):
        """Puts the objects of a query without an order, which is shown by this line, in the order in which the program has them."""
        found, self.unordered = self.unordered, None
        if found and self.names.get(plain(Words(line).peek(1))) is found and len(mine) == 1:
            shown = [int(number) for _, number in OBJECT.findall(mine[0])]
            known = {self.numbers[id(it)]: it for it in found if id(it) in self.numbers}
            new = [it for it in found if id(it) not in self.numbers]
            if len(shown) == len(found) and set(known) <= set(shown):
                found[:] = [known[number] if number in known else new.pop(0) for number in shown]

    def place_of(self, it):
        """The place of an object among those that were made and read."""
        return next(place for place, one in enumerate(self.kept) if one is it)

    def number(self, mine, theirs):
        """Takes the numbers by which the program shows objects whose numbers are not known yet: one each, of an object of the same class."""
        for mine_one, theirs_one in zip(mine, theirs):
            shown, held = OBJECT.findall(mine_one), OBJECT.findall(theirs_one)
            if len(shown) == len(held):
                for (name, number), (named, place) in zip(shown, held):
                    if place[0] == "?" and name == named and number[0] != "?" and int(number) not in self.numbers.values():
                        self.numbers[id(self.kept[int(place[1:])])] = int(number)

    def numbered(self, answer):
        """An answer with the numbers that are known by now."""
        return OBJECT.sub(lambda it: it[0] if it[2][0] != "?" else self.named(self.kept[int(it[2][1:])]), answer)

    def make(self, name, words):
        made_of = self.mapped.classes[words.name()]
        cells = {}
        while words.more():
            attribute = words.name()
            words.take()
            cells[attribute] = value(words.take())
            words.takes(",")
        made = made_of(**cells)
        self.kept.append(made)
        self.names[name] = made

    def do_get(self, words):
        made_of = self.mapped.classes[words.name()]
        words.take()
        key = []
        while not words.takes(")"):
            key.append(value(words.take()))
            words.takes(",")
        return self.session.get(made_of, tuple(key))

    def do_objects(self, words):
        query = Query(self.mapped, words)
        try:
            found = list(self.session.scalars(query.text).unique())
            self.unordered = None if query.is_ordered else found
            return found
        except exc.OperationalError as fault:
            if "no such table" in str(fault):
                raise
            raise NotAsked("a text that the store does not take") from fault

    def do_related(self, words):
        owner, name = self.member(words)
        got = getattr(owner, name)
        return list(got) if isinstance(got, list) else got

    def cells(self):
        """The cells of each object that has no row, by the object's place."""
        found = {}
        for place, made in enumerate(self.kept):
            state = sa.inspect(made)
            if state.transient or state.pending:
                names = [attribute.key for attribute in state.mapper.column_attrs]
                found[place] = {name: made.__dict__.get(name) for name in names}
        return found

    def give_back(self, cells):
        """Keys that a refused flush gave stay in SQLAlchemy's objects. In this language they are as they were."""
        for place, before in cells.items():
            made = self.kept[place]
            for name, held in before.items():
                if sa.inspect(made).transient and made.__dict__.get(name) != held:
                    made.__dict__[name] = held

    def do(self, line):
        """The lines that one line of the script answers."""
        words = Words(line)
        first = words.take()
        if words.takes("="):
            form = words.take()
            if form == "new":
                self.make(plain(first), words)
            elif form == "begin_nested":
                self.names[plain(first)] = self.session.begin_nested()
            else:
                self.names[plain(first)] = getattr(self, "do_" + form)(words)
            return []
        return getattr(self, "do_" + first)(words) or []

    def do_create_all(self, _):
        self.mapped.metadata.create_all(self.engine)

    def do_drop_all(self, _):
        self.mapped.metadata.drop_all(self.engine)

    def do_add(self, words):
        self.session.add(self.object(words))

    def do_delete(self, words):
        it = self.object(words)
        if sa.inspect(it).detached:
            raise Refused("InvalidRequestError(NotPersistent)")
        self.session.delete(it)

    def do_expunge(self, words):
        self.session.expunge(self.object(words))

    def do_expire(self, words):
        self.session.expire(self.object(words))

    def do_refresh(self, words):
        self.session.refresh(self.object(words))

    def do_set(self, words):
        owner, name = self.member(words)
        words.take()
        setattr(owner, name, value(words.take()) if is_value(words.peek()) else self.object(words))

    def do_append(self, words):
        owner, name = self.member(words)
        members, it = getattr(owner, name), self.object(words)
        if it not in members:
            members.append(it)

    def do_remove(self, words):
        owner, name = self.member(words)
        members, it = getattr(owner, name), self.object(words)
        if it not in members:
            raise Refused("InvalidRequestError(NotAMember)")
        members.remove(it)

    def do_show(self, words):
        it = self.object(words)
        if not words.takes("."):
            return [self.named(it)]
        name = words.name()
        got = getattr(it, name)
        return [self.named(got) if name in sa.inspect(it).mapper.relationships else told(got)]

    def do_state(self, words):
        state = sa.inspect(self.object(words))
        return [next(word for word in ("transient", "pending", "persistent", "deleted", "detached") if getattr(state, word))]

    def do_is(self, words):
        return ["true" if self.object(words) is self.object(words) else "false"]

    def do_flush(self, _):
        self.session.flush()

    def do_commit(self, words):
        (self.names[words.name()] if words.more() else self.session).commit()

    def do_rollback(self, words):
        (self.names[words.name()] if words.more() else self.session).rollback()

    def do_close(self, _):
        self.session.close()

    def sent(self, text):
        """What a statement answers. Where it is refused, it fails nothing else."""
        connection = self.session.connection()
        connection.exec_driver_sql("savepoint asked")
        try:
            answer = connection.execute(sa.text(text))
        except exc.DBAPIError as fault:
            connection.exec_driver_sql("rollback to savepoint asked")
            if isinstance(fault, exc.IntegrityError) or refusal_of(fault, self).startswith("OperationalError("):
                raise
            raise Untaken(str(fault)) from fault
        finally:
            connection.exec_driver_sql("release savepoint asked")
        return answer

    def do_rows(self, words):
        self.session.flush()
        rows = [row_told(row) for row in self.sent("select " + sql(words.rest(), self.engine.dialect.name))]
        return rows + ["rows %d" % len(rows)]

    def do_bulk(self, words):
        form = words.take()
        table, text = plain(words.peek()), sql(words.rest(), self.engine.dialect.name)
        self.session.flush()
        count = self.sent({"insert": "insert into ", "update": "update ", "delete": "delete from "}[form] + text).rowcount
        for it in list(self.session.identity_map.values()):
            if table in [one.name for one in sa.inspect(type(it)).tables]:
                self.session.expire(it)
        return ["rows %d" % count]

    def read(self, text):
        """Rows as they are now, by the connection itself: a session would begin a transaction."""
        cursor = self.connection.cursor()
        cursor.execute(text)
        return cursor.fetchall()

    def do_dump(self, _):
        is_file = self.engine.dialect.name == "sqlite"
        was_idle = not is_file and self.connection.get_transaction_status() == 0
        all_tables = "select name from sqlite_master" if is_file else "select tablename from pg_tables where schemaname = 'public'"
        there = {row[0] for row in self.read(all_tables)}
        out = []
        for block in self.mapped.tables.values():
            if block.name in there:
                order = ", ".join(quoted(key) for key in block.keys)
                rows = self.read("select * from %s order by %s" % (quoted(block.name), order))
                out.append("table %s (%s)" % (block.name, ", ".join(name for name, _, _ in block.columns)))
                out += ["  " + row_told(row) for row in rows]
        if was_idle:
            self.connection.rollback()
        return out


# Refusals


def violation(fault, player, table):
    """The kind of the rule that a statement broke."""
    text = str(fault.orig)
    kind = getattr(getattr(fault.orig, "diag", None), "constraint_name", None)
    if kind or getattr(fault.orig, "pgcode", None):
        return {"pk": "PrimaryKey", "uq": "Unique", "fk": "Foreign"}.get((kind or "")[:2], "NotNull")
    if "NOT NULL" in text:
        return "NotNull"
    if "FOREIGN" in text:
        return "Foreign"
    named = re.search(r"UNIQUE constraint failed: ([^\n]*)", text)
    columns = [one.split(".")[-1] for one in named[1].split(", ")] if named else []
    keys = player.mapped.tables[table].keys if table in player.mapped.tables else []
    return "PrimaryKey" if columns == keys else "Unique"


def table_of(fault):
    """The table that the refused statement names first."""
    text = getattr(fault, "statement", None) or ""
    found = re.search(r"\b(?:INTO|UPDATE|FROM|into|update|from) (\"(?:[^\"]|\"\")*\"|\w+)", text)
    return plain(found[1]) if found else "?"


def refusal_of(fault, player):
    """The program's words for what SQLAlchemy raised."""
    if isinstance(fault, Refused):
        return str(fault)
    text, table = str(fault), table_of(fault)
    if isinstance(fault, exc.PendingRollbackError):
        return "PendingRollbackError"
    if isinstance(fault, exc.IntegrityError):
        return "IntegrityError(%s, %s)" % (violation(fault, player, table), table)
    if isinstance(fault, orm_exc.StaleDataError):
        return "StaleDataError(%s)" % re.search(r"table '([^']*)'", text)[1]
    missing = re.search(r"no such table: (?:main\.)?(.*)|relation \"(.*)\" does not exist", text)
    if missing:
        return "OperationalError(%s)" % (missing[1] or missing[2])
    if isinstance(fault, (exc.ResourceClosedError, orm_exc.ObjectDeletedError)):
        return type(fault).__name__
    if isinstance(fault, exc.InvalidRequestError) and text.startswith("Could not refresh instance"):
        return "ObjectDeletedError"
    for kind, part in (("NotPersistent", "is not persisted"), ("NotPersistent", "is not persistent within this Session"), ("NotInSession", "is not present in this Session"),
                       ("Deleted", "has been deleted"),
                       ("IdentityConflict", "already present in this session")):
        if isinstance(fault, exc.InvalidRequestError) and part in text:
            return "InvalidRequestError(%s)" % kind
    return type(fault).__name__


def bare_refusal(text):
    """A refusal without what SQLAlchemy does not tell."""
    return re.sub(r"(CircularDependencyError|DetachedInstanceError|ObjectDeletedError|DataError)\(.*", r"\1", text)


def form_of(line):
    """The word that tells the form of a line."""
    words = Words(line)
    return words.peek(2) if words.peek(1) == "=" else words.peek()


def is_own(refusal, form):
    """Whether this language alone has the refusal: SQLAlchemy's session does such lines, or has none."""
    if refusal == "PendingRollbackError" and form in PENDING:
        return True
    return refusal.startswith(OWN) or any("InvalidRequestError(%s" % kind in refusal for kind in OWN_KINDS)


# Comparison


def is_blank(line):
    return not line.strip() or line.strip().startswith("#")


def links_of(lines):
    """The names of the links of each class, inherited ones and those of `backref` among them."""
    found, bases, name = {}, {}, None
    for line in lines:
        words = Words(line)
        if words.peek() == "class" and words.peek(1) != "=":
            words.take()
            name = words.name()
            found.setdefault(name, [])
            if words.takes("extends"):
                bases[name] = words.name()
        elif name and words.peek() in ("one", "many"):
            found[name].append(words.peek(1))
            if "backref" in words.words:
                found.setdefault(plain(words.peek(2)), []).append(words.words[words.words.index("backref") + 1])
        elif words.words == ["end"]:
            name = None
    for one, base in bases.items():
        found[one] = found.get(base, []) + found[one]
    return found


def ending(lines):
    """What is asked behind a script: every link of every object, and the rows."""
    links, out = links_of(lines), []
    for line in lines:
        words = Words(line)
        if words.peek(1) == "=" and words.peek(2) in ("new", "get", "objects") and len(words.words) > 3:
            terms = [words.words[0]] if words.peek(2) != "objects" else ["%s[%d]" % (words.words[0], at) for at in range(3)]
            out += ["show %s.%s" % (term, link) for term in terms for link in links.get(plain(words.words[3]), [])]
    return list(dict.fromkeys(out)) + ["commit", "dump"]


def parts_of(lines):
    """The script in parts that are asked one by one, each with the number of its first line: blocks, and other lines."""
    parts, block = [], None
    for number, line in enumerate(lines, 1):
        if block is not None:
            block += [] if is_blank(line) else [line]
            if line.strip() == "end":
                block = None
        elif not is_blank(line):
            parts.append((number, [line]))
            words = Words(line)
            if words.peek() in ("table", "class") and words.peek(1) != "=":
                block = parts[-1][1]
            if form_of(line) in ("new", "get", "objects", "related") and words.peek(1) == "=":
                parts.append((number, ["show " + words.peek()]))
    return parts


def answers_of(program, parts):
    """What the program answers to each part."""
    lines, marks = [], []
    for _, part in parts:
        lines += part + [MARK]
        marks.append(len(lines))
    ran = subprocess.run(program, input="\n".join(lines).encode(), stdout=subprocess.PIPE, timeout=120)
    answers, out = ran.stdout.decode().split("\n")[:-1], []
    for number in marks:
        mark = "error %d: ScriptError(%d, 1)" % (number, number)
        if mark not in answers:
            raise NotAsked("a block without an end, or a run that ended early")
        place = answers.index(mark)
        out.append([re.sub(r"^(error|warning) \d+: ", r"\1: ", one) for one in answers[:place]])
        answers = answers[place + 1 :]
    return out


def shape(answer, form):
    """An answer as it is compared."""
    if answer.startswith("warning: "):
        return re.sub(r"@\d+ is not in the session, (.*) skipped", r" \1", answer)
    if form in ("rows", "dump", "show"):
        answer = re.sub(r"\btrue\b", "1", re.sub(r"\bfalse\b", "0", answer))
    return bare_refusal(answer)


def shapes(answers, line):
    """Answers as they are compared: rows of a select in no order, and warnings first, but for a line that is refused."""
    form = form_of(line)
    out = [shape(one, form) for one in answers]
    notes = sorted({one for one in out if one.startswith("warning: ")})
    rest = [one for one in out if not one.startswith("warning: ")]
    if rest[-1:] and rest[-1].startswith("error: "):
        return rest
    if form == "rows":
        rest = sorted(rest) if not re.search(r"\b(limit|offset)\b", line) else rest[-1:]
    return notes + rest


def warned(caught, player):
    """The warnings of objects outside the session, as they are compared. Of members that leave only those of pairs count."""
    out = []
    for one in caught:
        found = re.match(r"Object of type <(.*)> not in session, (.*) operation along '(.*)\.(.*)' w", str(one.message))
        if found and (found[2] == "add" or any(
                (link.owner, link.name) == found.group(3, 4) and link.secondary for link in player.mapped.links)):
            out.append("warning: %s %s.%s" % found.group(1, 3, 4))
    return out


def played(player, line):
    """What SQLAlchemy answers to a line. Untaken where the store does not take the text of a statement that the line says."""
    before = player.cells() if player.session else {}
    with warnings.catch_warnings(record=True) as caught:
        warnings.simplefilter("always")
        try:
            got = (player.configure() or []) if line.strip() == "configure" else player.do(line)
        except (NotAsked, Untaken):
            raise
        except Exception as fault:  # Whatever it refuses is its answer.
            got = ["error: " + refusal_of(fault, player)]
            if player.session:
                player.give_back(before)
    return warned(caught, player) + got


def differences(program, url, script):
    """The lines at which the two part: each line's number and text, with both answers."""
    lines = script.split("\n")
    parts = parts_of(lines + ending(lines))
    player = Player(url)
    try:
        for (number, part), ours in zip(parts, answers_of(program, parts)):
            refusal = next((one[7:] for one in ours if one.startswith("error: ")), "")
            line = part[0]
            form = form_of(line)
            if refusal and is_own(refusal, form) or form == "compile":
                continue
            if refusal.startswith("DataError(") and form in ("rows", "bulk", "objects") and not refusal.startswith("DataError(keys of"):
                line, ours = "flush", ours[:-1]  # The text alone was refused, behind the flush.
            if player.session is None and len(part) > 1:
                player.blocks.append(part)
                continue
            try:
                mine = shapes(ours, line)
                player.order(mine, line)
                theirs = shapes(played(player, line), line)
                player.number(mine, theirs)
                theirs = [player.numbered(one) for one in theirs]
            except Untaken:
                continue
            if mine != theirs:
                pairs = zip(mine + [""] * len(theirs), theirs + [""] * len(mine))
                yield (number, line.strip(), *next(pair for pair in pairs if pair[0] != pair[1]))
    finally:
        player.end()


def scripts_of(path):
    """The scripts of a file, each with what it is called: of a file of cases those of its cases, else the file itself."""
    if not path.endswith(".txt"):
        with open(path, encoding="utf-8") as file:
            return [(path, file.read())]
    return [("%s (%s)" % (path, case.name), "".join(line + "\n" for line, _ in case.lines)) for case in cases_of(pathlib.Path(path))]


def main():
    words = argparse.ArgumentParser(description=__doc__, formatter_class=argparse.RawDescriptionHelpFormatter)
    words.add_argument("--url", default="sqlite://")
    words.add_argument("--on", action="store_true", help="go on behind a difference")
    words.add_argument("program")
    words.add_argument("scripts", nargs="+")
    asked = words.parse_args()
    kinds, left_out, count, parted = collections.Counter(), collections.Counter(), 0, 0
    for name, script in (one for path in asked.scripts for one in scripts_of(path)):
        try:
            every = differences([asked.program], asked.url, script)
            found = list(every if asked.on else itertools.islice(every, 1))
            every.close()
        except NotAsked as why:
            left_out[str(why)[:60]] += 1
            continue
        count += 1
        parted += bool(found)
        for number, line, ours, theirs in found:
            print("%s:%d: %s: program %s, SQLAlchemy %s" % (name, number, line, ours or "nothing", theirs or "nothing"), flush=True)
            kinds[(form_of(line), re.sub(r"\d+|'[^']*'", "..", ours), re.sub(r"\d+|'[^']*'", "..", theirs))] += 1
    print("%d scripts asked, %d left out, %d with a difference" % (count, sum(left_out.values()), parted))
    for (form, ours, theirs), times in kinds.most_common():
        print("%4d  %s: program %s, SQLAlchemy %s" % (times, form, ours or "nothing", theirs or "nothing"))
    for why, times in left_out.most_common():
        print("%4d  left out: %s" % (times, why))


if __name__ == "__main__":
    main()
