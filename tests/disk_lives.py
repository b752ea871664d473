"""What programs do with a database on a disk, and what may be found there then: for tests/test_failing_disks.py and tests/crash_images.py.

A database has one table, t, and a *state* is the set of its keys. A *life* is a program's: it shows a state, and then makes commits, one
after the other. A state that may be found later is that of the commits that were answered, or has the one beside them that was under way.
"""
import collections
import contextlib
import os
import subprocess

from program import PATIENCE, PROGRAM
import guarddb

OPENS = 'open r root\n'
SETUP = OPENS + 'r: CREATE TABLE t (k BIGINT PRIMARY KEY, x TEXT)\n'
READS = OPENS + 'r: SELECT k FROM t\n'
BASE = frozenset(range(1, 6))
LENGTHS = [0, 10, 300, 300, 900, 1190]

# A commit: its statements, one of them or a block; the keys that it adds and takes away.
Commit = collections.namedtuple('Commit', 'statements adds takes')
# What a life told: the state that it showed, or None, and how many commits were answered.
Told = collections.namedtuple('Told', 'shown answered')


def insert(keys, numbers):
    return 'INSERT INTO t VALUES ' + ', '.join(f"({key}, '{'x' * numbers.choice(LENGTHS)}')" for key in keys)


def commits_of(numbers, first, count):
    """So many commits: INSERTs of one to three rows, DELETEs of rows that they added, and blocks of both."""
    found, there, key = [], [], first
    for _ in range(count):
        keys = list(range(key, key + numbers.choice([1, 1, 1, 2, 3])))
        key += len(keys)
        takes = numbers.sample(there, 1) if there and numbers.random() < 0.3 else []
        statements = [insert(keys, numbers)] + [f'DELETE FROM t WHERE k = {taken}' for taken in takes]
        there = [known for known in there + keys if known not in takes]
        found.append(Commit(statements, frozenset(keys), frozenset(takes)))
    return found


def lines_of(commit):
    statements = commit.statements if len(commit.statements) == 1 else ['BEGIN', *commit.statements, 'COMMIT']
    return [f'r: {statement}\n' for statement in statements]


def script_of(commits):
    """A script that shows the state, and then makes the commits."""
    return READS + ''.join(line for commit in commits for line in lines_of(commit))


def told(printed, commits):
    """What the answers to such a script tell; the last line may be cut off."""
    lines = printed.split('\n')[:-1]
    if len(lines) < 2 or not lines[1].startswith('rows ') or len(lines) < 2 + int(lines[1][5:]):
        return Told(None, 0)
    rows = int(lines[1][5:])
    answers, answered = lines[2 + rows:], 0
    for commit in commits:
        count = len(lines_of(commit))
        if len(answers) < count or any(not answer.startswith('ok ') for answer in answers[:count]):
            break
        answers, answered = answers[count:], answered + 1
    return Told(frozenset(map(int, lines[2:2 + rows])), answered)


def after(state, commits):
    for commit in commits:
        state = (state | commit.adds) - commit.takes
    return state


class States:
    """The states that may be found, and of them that of all that was answered."""

    def __init__(self, state):
        self.possible, self.answered = {state}, state

    def show(self, state):
        """A state was found; whether that may be."""
        return state in self.possible

    def live(self, life, commits):
        """What may be found after a life; whether what it showed may be."""
        if life.shown is None:
            return True
        if not self.show(life.shown):
            return False
        self.answered = after(life.shown, commits[:life.answered])
        self.possible = {self.answered, after(life.shown, commits[:life.answered + 1])}
        return True


def served(disk, commits, **fault):
    """A life of a server, with its status and messages."""
    place, shown, answered = disk.folder + '.socket', None, 0
    words = [PROGRAM, 'serve', disk.path(), '--socket', place, '--connections', '1']
    with contextlib.suppress(FileNotFoundError):
        os.remove(place)
    with subprocess.Popen(words, stderr=subprocess.PIPE, text=True, env=disk.environment(**fault)) as server:
        first = server.stderr.readline()
        if first == f'guarddb: listening on {place}\n':
            with contextlib.suppress(OSError, guarddb.Refused), guarddb.connect(place, timeout=PATIENCE) as connection:
                session = connection.open('root')
                shown = frozenset(int(row[0]) for row in session.ask('SELECT k FROM t'))
                for commit in commits:
                    for line in lines_of(commit):
                        session.ask(line[3:-1])
                    answered += 1
        _, messages = server.communicate(timeout=PATIENCE)
    return Told(shown, answered), server.returncode, first + messages
