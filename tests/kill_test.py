#!/usr/bin/env python3
"""Kills `guarddb run FILE SCRIPT` at random places of a script of 200 commits, 200 times:

    python3 tests/kill_test.py [SEED [ROUNDS]]

Without a seed it takes one. The first line and the last name the seed, so that a run can be repeated: the scripts and the places
are the same then, but for how fast the machine is.

The files are in a new folder below TMPDIR: a folder in memory, such as /dev/shm, is as good, since a kill takes no sector back.

Before each round the file is a new one, or the one that the round before has left, by turns. Each second new one has a journal.
Each round has a script of its own: INSERTs, UPDATEs and DELETEs, each a commit, and blocks of several of them, whose COMMIT is one. SIGKILL comes when a
random number of answers is there, and a random while later, or in the opening. Then `guarddb check FILE` must print `ok CHECK`,
and a second run of the program must find the rows of the commits that were acknowledged on standard output, or of these and the
one that was under way. The program is the one in the environment variable GUARDDB, or else fake_guarddb.py, whose faults, which
it has in FAKE_FAULT, are to be found by this test.

The last line counts the rounds by what was found. The status is 1 where a round failed, or where more than a quarter of the
kills came when all answers were there; the files are then kept.
"""
import os
import random
import select
import shutil
import subprocess
import sys
import tempfile
import time

from program import PROGRAM, make_database, run
import guarddb

COMMITS = 200
KEYS = 150
TABLE = 'CREATE TABLE t (k BIGINT PRIMARY KEY, x BIGINT, o TEXT)'


# ---- scripts, and what they make of rows

def insert(rows, random_numbers):
    free = [key for key in range(KEYS) if key not in rows]
    values = []
    for key in random_numbers.sample(free, min(len(free), random_numbers.randrange(1, 5))):
        x, o = random_numbers.randrange(-1000, 1000), random_numbers.choice([None, '', 'o' * random_numbers.randrange(1000)])
        rows[key] = (x, o)
        values.append(f'({key}, {guarddb.literal(x)}, {guarddb.literal(o)})')
    return f'INSERT INTO t VALUES {", ".join(values)}' if values else None


def update(rows, random_numbers):
    low, step = random_numbers.randrange(KEYS), random_numbers.randrange(1, 100)
    for key in list(rows):
        if low <= key < low + 20:
            rows[key] = (rows[key][0] + step, rows[key][1])
    return f'UPDATE t SET x = x + {step} WHERE k >= {low} AND k < {low + 20}'


def delete(rows, random_numbers):
    low = random_numbers.randrange(KEYS)
    for key in [key for key in rows if low <= key < low + 4]:
        del rows[key]
    return f'DELETE FROM t WHERE k >= {low} AND k < {low + 4}'


def statement(rows, random_numbers):
    """A statement that changes rows, and is carried out on `rows`."""
    while True:
        before = dict(rows)
        text = random_numbers.choice([insert, insert, update, delete])(rows, random_numbers)
        if text and rows != before:
            return text


def make_script(rows, random_numbers):
    """The script's lines, and for each number of answers the rows that are committed once these answers are there."""
    lines, states, rows = ['open r root'], [dict(rows)] * 2, dict(rows)
    for _ in range(COMMITS):
        if random_numbers.random() < 0.3:
            block = [statement(rows, random_numbers) for _ in range(random_numbers.randrange(1, 5))]
            lines += ['r: BEGIN'] + [f'r: {text}' for text in block] + ['r: COMMIT']
            states += [states[-1]] * (len(block) + 1)
        else:
            lines.append(f'r: {statement(rows, random_numbers)}')
        states.append(dict(rows))
    return lines, states


# ---- a round

def read_answers(server, count, seconds):
    """What the server has written by the time that so many lines are there, or it has ended, or so long has passed."""
    found, end = b'', time.monotonic() + seconds
    while found.count(b'\n') < count:
        ready, _, _ = select.select([server.stdout], [], [], max(0, end - time.monotonic()))
        piece = os.read(server.stdout.fileno(), 65536) if ready else b''
        if not piece:
            break
        found += piece
    return found


def killed(path, script, count, pause):
    """Runs the script, and kills it after so many answers and a pause; its answers."""
    server = subprocess.Popen([PROGRAM, 'run', path, script], stdout=subprocess.PIPE)
    found = read_answers(server, count, 60)
    end = time.perf_counter() + pause       # 'sleep' is too coarse for what one commit takes
    while time.perf_counter() < end:
        pass
    server.kill()
    found += server.stdout.read()
    server.stdout.close()
    server.wait()
    return [line.decode() for line in found.split(b'\n')[:-1]]


def rows_of(path, reads):
    status, output, messages = run('run', path, reads)
    assert status == 0, f'the rows cannot be read: status {status}, {output!r}, {messages!r}'
    opened, rows = output.split('\n', 1)
    assert opened == 'ok OPEN', output
    return {int(k): (int(x), o) for k, x, o in guarddb.read_answer(rows)}


def try_round(path, files, states, lines, count, pause):
    """Whether the commit under way was found in the file, None where all were acknowledged, and the rows that were found."""
    with open(files['script'], 'w') as script:
        script.write(''.join(line + '\n' for line in lines))
    answers = killed(path, files['script'], count, pause)
    assert not any(answer.startswith(('refused', 'warn')) for answer in answers), f'an answer is {answers[-1]!r}'
    assert len(answers) <= len(lines), 'there are more answers than events'
    checked = run('check', path)
    assert checked == (0, 'ok CHECK\n', ''), f'check: {checked}'
    found = rows_of(path, files['reads'])
    acknowledged, next_one = states[len(answers)], states[min(len(answers) + 1, len(lines))]
    assert found in (acknowledged, next_one), (
        f'after {len(answers)} of {len(lines)} answers the rows are '
        f'those after {[place for place, state in enumerate(states) if state == found] or "none"} of them')
    return found != acknowledged if len(answers) < len(lines) else None, found


def seconds_of_a_run(path, files, lines):
    """How long the opening takes, and how long each answer of a whole run."""
    with open(files['script'], 'w') as script:
        script.write(''.join(line + '\n' for line in lines))
    start = time.monotonic()
    server = subprocess.Popen([PROGRAM, 'run', path, files['script']], stdout=subprocess.PIPE)
    found = read_answers(server, 1, 600)
    opened = time.monotonic()
    found += server.stdout.read()
    ended = time.monotonic()
    assert server.wait() == 0 and found.count(b'\n') == len(lines), f'a run that is not killed: {found.decode()!r}'
    return opened - start, (ended - opened) / len(lines)


def place(random_numbers, lines, opening, answer):
    """After how many answers to kill, and how much later."""
    if random_numbers.random() < 0.1:
        return 0, random_numbers.random() * opening
    return random_numbers.randrange(1, len(lines)), random_numbers.random() * 2 * answer


def main(seed, rounds):
    folder = tempfile.mkdtemp(prefix='guarddb-kill-')
    print(f'seed {seed}, {rounds} rounds, files in {folder}', flush=True)
    random_numbers = random.Random(seed)
    files = {name: os.path.join(folder, name) for name in ('empty', 'journaled', 'db', 'script', 'reads')}
    with open(files['reads'], 'w') as reads:
        reads.write(f'open r root\nr: {TABLE}\n')
    for name in ('empty', 'journaled'):
        make_database(files[name], pages=96, journal=name == 'journaled')
        assert run('run', files[name], files['reads']) == (0, 'ok OPEN\nok CREATE TABLE\n', '')
    with open(files['reads'], 'w') as reads:
        reads.write('open r root\nr: SELECT k, x, o FROM t\n')
    counts, failed, rows = {False: 0, True: 0, None: 0}, 0, {}
    for number in range(rounds):
        if number % 2 == 0:
            shutil.copyfile(files['journaled' if number % 4 else 'empty'], files['db'])
            rows = {}
        lines, states = make_script(rows, random_numbers)
        if number == 0:
            opening, answer = seconds_of_a_run(files['db'], files, lines)
            shutil.copyfile(files['empty'], files['db'])
        try:
            under_way, rows = try_round(files['db'], files, states, lines, *place(random_numbers, lines, opening, answer))
            counts[under_way] += 1
        except AssertionError as fault:
            failed += 1
            print(f'round {number}: {fault}', flush=True)
            for name in ('db', 'script'):
                shutil.copyfile(files[name], f'{files[name]}-{number}')
            shutil.copyfile(files['empty'], files['db'])
            rows = {}
    print(f'seed {seed}: {counts[False]} rounds with what was acknowledged, {counts[True]} with the commit under way, '
          f'{counts[None]} at the end of the script, {failed} failed')
    if failed or counts[None] > rounds / 4:     # answers that come all at once, at the end, are no acknowledgements
        return 1
    shutil.rmtree(folder)
    return 0


if __name__ == '__main__':
    seed = int(sys.argv[1]) if len(sys.argv) > 1 else random.randrange(1 << 32)
    sys.exit(main(seed, int(sys.argv[2]) if len(sys.argv) > 2 else 200))
