"""Asks SQLite, PostgreSQL and MariaDB whether they take the texts that cases of scripts/ over the tables of written.sqla, library.sqla and
reporting.sqla answer, and what the selects among them answer over small tables.

    python3 tools/ask_servers.py sqlite
    python3 tools/ask_servers.py postgresql "psql -h DIR -U USER DATABASE"
    python3 tools/ask_servers.py mysql "mariadb --socket=SOCKET DATABASE"

Further words name other files of cases, as paths.

The server's database must be empty. Each refused text is written with the server's message, and then each select whose
rows, in any order, are not those of SQLite. A text that is refused for the rows that it would leave is only counted: the
server took it as a text.
"""
import re
import shlex
import sqlite3
import subprocess
import sys

from script_cases import cases, statements

FILES = ['compiled_%s.txt' % name for name in ('conditions', 'negations', 'sums', 'clauses', 'tables', 'writes', 'queries')]
# of a server behind its command
FILES += sys.argv[2 + (sys.argv[1] != 'sqlite'):]
ROWS = [
    ('users', [(1, 'ann', 3, True, None, 'x'), (2, 'bob', None, False, b'ab', None),
               (3, "it's", 9, None, None, 'aQ')]),
    ('addresses', [(1, 1, 'x1'), (2, 1, None), (3, 2, 'y')]),
    ('solo', [(1,), (2,)]),
    ('writers', [(1, 'ann', None), (2, 'bob', 1), (3, 'cat', 1)]),
    ('books', [(1, 'oak', 120, 1), (2, 'elm', 90, 1), (3, 'ash', 120, 2), (4, None, None, None)]),
    ('shelves', [(1, 'low'), (2, 'high'), (3, None)]),
    ('placings', [(1, 1), (1, 3), (2, 1)]),
    ('staff', [(1, 'staff', None, None), (2, 'manager', 1, 50), (3, 'director', 2, 70), (4, 'engineer', 2, None),
               (5, 'lead', 2, None), (6, 'lead', 3, None), (8, 'manager', 3, 9)]),
    ('engineers', [(4, 4), (5, 5), (6, None)]),
    ('leads', [(5, 'x', 2), (6, 'y', 3)]),
    ('notes', [(1, 5, 'n'), (2, 6, 'm'), (3, 5, None)]),
]

# what servers say of the rows that a statement would leave
OF_ROWS = ('constraint', 'Duplicate entry', 'cannot be null', "doesn't have a default value")


def echoed(case):
    """The dialect in which a case has statements echoed, none where it has not."""
    words = case.words[0] if case.words else []
    if '--echo' not in words:
        return None
    return words[words.index('--dialect') + 1] if '--dialect' in words else 'sqlite'


def entries(dialect):
    """The texts of a dialect, each with the shown values of its marks: what is compiled for it, and what is echoed in it."""
    found = []
    for case in cases(*FILES):
        for line, answers in case.lines:
            if line.startswith('compile %s ' % dialect) or echoed(case) == dialect:
                found += statements(answers)
    return found


def marks(dialect, text):
    """The text with the marks of the server's own prepared statements."""
    if dialect == 'sqlite':
        return text
    count = [0]

    def one(found):
        if found.group(0) == '%%':
            return '%'
        count[0] += 1
        return '$%d' % count[0] if dialect == 'postgresql' else '?'

    return re.sub(r'%%|%\(\w+\)s|%s', one, text)


def literal(dialect, shown):
    if shown.startswith("x'") and dialect == 'postgresql':
        return "'\\x" + shown[2:-1] + "'::bytea"
    if dialect == 'mysql' and shown.startswith("'"):
        return shown.replace('\\', '\\\\')
    return shown


def kind(shown):
    if shown.startswith("x'"):
        return 'bytea'
    if shown.startswith("'"):
        return 'text'
    return {'true': 'boolean', 'false': 'boolean', 'null': 'unknown'}.get(shown, 'bigint')


def value(v):
    return {None: 'null', True: 'true', False: 'false'}[v] if v is None or isinstance(v, bool) \
        else "x'%s'" % v.hex() if isinstance(v, bytes) else str(v) if isinstance(v, int) \
        else "'" + v.replace("'", "''") + "'"


def plan(dialect):
    """What is asked: (label, statements) in order."""
    texts = entries(dialect)
    creates = [t for t, _ in texts if t.startswith('CREATE TABLE')]
    asked = [('CREATE', t) for t in pick(creates)]
    asked += [('ALTER', t) for t in dict.fromkeys(t for t, _ in texts if t.startswith('ALTER'))]
    for table, rows in ROWS:
        for row in rows:
            shown = ', '.join(literal(dialect, value(v)) for v in row)
            asked.append(('FILL', 'INSERT INTO %s VALUES (%s)' % (table, shown)))
    asked += [('ASK', (t, v)) for t, v in texts if t.split(' ')[0] in ('SELECT', 'INSERT', 'UPDATE', 'DELETE')]
    asked += [('CREATE AGAIN', t) for t in creates]
    return asked


def pick(creates):
    """One text for each table, the shortest: the others are for foreign keys that come later."""
    best = {}
    for text in creates:
        name = text[:text.index(' (')]
        if name not in best or len(text) < len(best[name]):
            best[name] = text
    return list(best.values())


def with_sqlite():
    at = sqlite3.connect(':memory:', isolation_level=None)
    refused, rows = [], {}
    for label, about in plan('sqlite'):
        text, shown = about if label == 'ASK' else (about, [])
        try:
            if label == 'CREATE AGAIN':
                other = sqlite3.connect(':memory:')
                other.execute(text)
                continue
            if label != 'ASK':
                at.execute(text)
                continue
            values = [at.execute('SELECT ' + v).fetchone()[0] for v in shown]
            at.execute('BEGIN')
            answer = at.execute(text, values).fetchall()
            at.execute('ROLLBACK')
            rows[len(rows)] = (text, sorted(map(cells, answer)))
        except sqlite3.Error as e:
            if at.in_transaction:
                at.execute('ROLLBACK')
            rows[len(rows)] = (text, None)
            refused.append((text, str(e)))
    return refused, rows


def cells(row):
    return '|'.join('' if c is None else c.hex() if isinstance(c, bytes) else str(int(c)) if isinstance(c, float)
                    and c == int(c) else str(c) for c in row)


def script(dialect):
    lines = []
    for n, (label, about) in enumerate(plan(dialect)):
        lines.append('SELECT \'@%d\';' % n)
        if label == 'ASK':
            text, shown = about
            values = [literal(dialect, v) for v in shown]
            text = marks(dialect, text)
            if dialect == 'postgresql':
                kinds = ', '.join(kind(v) for v in shown)
                lines.append('PREPARE p%d%s AS %s;' % (n, '(%s)' % kinds if kinds else '', text))
                lines.append('BEGIN; EXECUTE p%d%s; ROLLBACK;' % (n, '(%s)' % ', '.join(values) if values else ''))
            else:
                quoted = text.replace('\\', '\\\\').replace("'", "''")
                lines.append("PREPARE p FROM '%s';" % quoted)
                for i, v in enumerate(values):
                    lines.append('SET @v%d = %s;' % (i, v))
                using = ' USING ' + ', '.join('@v%d' % i for i in range(len(values))) if values else ''
                lines.append('START TRANSACTION; EXECUTE p%s; ROLLBACK;' % using)
        elif label == 'CREATE AGAIN':
            again = marks(dialect, about).replace('CREATE TABLE ', 'CREATE TEMPORARY TABLE ', 1)
            if 'REFERENCES' not in about:
                name = again[len('CREATE TEMPORARY TABLE '):again.index(' (')]
                again = 'BEGIN; %s; ROLLBACK;' % again if dialect == 'postgresql' else '%s; DROP TEMPORARY TABLE %s;' % (again, name)
                lines.append(again)
        else:
            lines.append(marks(dialect, about) + ';')
    return '\n'.join(lines) + '\n'


def with_server(dialect, command):
    """Refused texts with their messages, and the rows of each that was asked."""
    extra = ['-At', '-q', '-P', 'null=NULL', '-v', 'ON_ERROR_STOP=0'] if dialect == 'postgresql' else ['-N', '-B', '-f', '--binary-as-hex']
    run = subprocess.run(shlex.split(command) + extra, input=script(dialect).encode(), stdout=subprocess.PIPE,
                         stderr=subprocess.STDOUT)
    asked = plan(dialect)
    refused, rows, n, seen = [], {}, -1, []
    out = run.stdout.decode('utf-8', 'replace').split('\n') + ['@%d' % len(asked)]
    count = 0
    for line in out:
        if re.fullmatch(r'@\d+', line):
            if n >= 0:
                label, about = asked[n]
                text = about[0] if label == 'ASK' else about
                wrong = [l for l in seen if 'ERROR' in l]
                if wrong:
                    refused.append((text, wrong[0]))
                if label == 'ASK':
                    rows[count] = (text, None if wrong else sorted(l for l in seen if l not in ('BEGIN', 'ROLLBACK')))
                    count += 1
            n, seen = int(line[1:]), []
        elif line:
            seen.append(line)
    return refused, rows


def same(dialect, line):
    """A row as SQLite writes it."""
    if dialect == 'postgresql':
        parts = [{'t': '1', 'f': '0', 'NULL': ''}.get(p, p[2:] if p.startswith('\\x') else p) for p in line.split('|')]
    else:
        parts = ['' if p == 'NULL' else p[2:].lower() if p.startswith('0x') else p for p in line.split('\t')]
    return '|'.join(parts)


def main():
    dialect = sys.argv[1]
    refused, rows = with_sqlite() if dialect == 'sqlite' else with_server(dialect, sys.argv[2])
    wrong = [(text, message) for text, message in refused if not any(words in message for words in OF_ROWS)]
    for text, message in wrong:
        print('refused: %s\n    %s' % (text, message))
    print('%d texts, %d refused, and %d refused for their rows' % (len(plan(dialect)), len(wrong), len(refused) - len(wrong)))
    if dialect == 'sqlite':
        return
    reference = with_sqlite()[1]
    differ = 0
    for n, (text, answer) in rows.items():
        if text.startswith('SELECT') and answer is not None and reference[n][1] is not None:
            mine = sorted(same(dialect, l) for l in answer)
            if mine != reference[n][1]:
                differ += 1
                print('differs: %s\n    here %s\n    SQLite %s' % (text, mine, reference[n][1]))
    print('%d selects answer otherwise than SQLite' % differ)


main()
