#!/usr/bin/env python3
"""kill_runs.py [RUNS]: runs a script over a store in a file, kills it at random moments, and asks sqlite3 whether the file is whole.

After each kill the file has to pass SQLite's own check, and its rows have to be those of a beginning of the script's commits: a commit
is there with all its rows or with none. Every other run goes on over the file that the last one left; the others begin with no file or
with one without bytes, and half of them are killed within 20 milliseconds, while the file is made. Run it at the top of the repository,
where `./sqla` has been built. It ends with status 1 where a file was not whole. It is no part of the gate.
"""
import os
import random
import signal
import sqlite3
import subprocess
import sys
import tempfile
import time

TABLE = """table users
  id integer primary key
  name varchar(30) not null
end
class User table users
end
configure
create_all
"""
COMMITS = 400
ROWS = 3


def script(start):
    """The lines that make the table and add rows from this commit on, three to a commit."""
    lines = [TABLE]
    for commit in range(start, start + COMMITS):
        for row in range(ROWS):
            lines.append(f"u = new User name='c{commit}r{row}'\nadd u\n")
        lines.append('commit\n')
    return ''.join(lines).encode()


def commits_in(path):
    """How many commits the file has; None where it is not whole or has half of one."""
    if not os.path.exists(path):
        return 0
    with sqlite3.connect(path) as store:
        if store.execute('pragma integrity_check').fetchall() != [('ok',)]:
            return None
        if not store.execute("select 1 from sqlite_schema where name = 'users'").fetchall():
            return 0
        rows = store.execute('select id, name from users order by id').fetchall()
    whole = [(n + 1, f'c{n // ROWS}r{n % ROWS}') for n in range(len(rows))]
    return len(rows) // ROWS if rows == whole and len(rows) % ROWS == 0 else None


def begin_anew(path, without_bytes):
    """Takes the file and those beside it away, and leaves a file without bytes where that is asked for."""
    for end in ('', '-wal', '-shm', '-journal'):
        if os.path.exists(path + end):
            os.remove(path + end)
    if without_bytes:
        open(path, 'wb').close()


def run_and_kill(program, path, start, seconds):
    """Whether the run was killed before its end."""
    run = subprocess.Popen([program, '--store', path], stdin=subprocess.PIPE, stdout=subprocess.DEVNULL)
    try:
        run.stdin.write(script(start))
        run.stdin.close()
    except BrokenPipeError:
        pass
    time.sleep(seconds)
    ended = run.poll() is not None
    if not ended:
        run.send_signal(signal.SIGKILL)
    run.wait()
    return not ended


def main():
    runs = int(sys.argv[1]) if len(sys.argv) > 1 else 50
    program = os.path.abspath('crates/sqla/out/sqla')
    killed = 0
    with tempfile.TemporaryDirectory() as folder:
        path = os.path.join(folder, 'kept.db')
        for number in range(runs):
            longest = 0.4
            if number % 2 == 0:
                begin_anew(path, number % 8 == 0)
                longest = 0.02 if number % 4 == 0 else 0.4
            before = commits_in(path)
            killed += run_and_kill(program, path, before, random.uniform(0.0005, longest))
            now = commits_in(path)
            if now is None or now < before:
                sys.exit(f'run {number}: the file has {now} whole commits, {before} before')
    print(f'{runs} runs, {killed} killed before their end: each file was whole')


if __name__ == '__main__':
    main()
