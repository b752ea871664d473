#!/usr/bin/env python3
"""A soak: random statements of five sessions over a socket on a file, with restarts.

    python3 tests/soak.py [SECONDS [SEED]]        an hour, if no time is given; a seed of its own, which it prints, if none is

Each round has a new file, every second one with a journal, and a random script (scripts/random_script.py), cut into pieces. A
piece is one connection, in which the sessions log in again. Each answer must be the one that the same events get over a database in memory (`run --memory`), and
`check` must find the file whole whenever a server has ended.

In two rounds out of three each piece has a server of its own. It ends with its connection, or is killed, once it has answered
or in the middle of the piece. In the middle an event is under way, which counts as done or as not done: the next server, which
is first asked for all rows, must answer as one or the other would, to the end of its piece.

In every third round one server takes all pieces, more of them, and its memory after the last piece is compared with that after
the first, which is a quarter of the round. It may have grown by LATE_GROWTH: by the pages that it keeps, which the first piece
did not yet fill (256 of 4,096 bytes: 1 MB), and by as much again for roles, privileges and policies, of which there are
few, and for what an allocator keeps in pieces; and by ANSWER times the bytes of the largest later answer, which an allocator need
not give back. Rows are few all the time: there are 213 keys. So what stays of each event is found from 350 bytes on where
later answers are small, and from 1,200 on with an answer of 140,000 bytes; the last line has the average of all rounds.

While a piece runs, the memory and the open files of its server are looked at: the files may not grow, and the memory by GROWTH
and by ANSWER times the bytes of the largest answer.

The program is the one in the environment variable GUARDDB. The last line has the counts. The status is 1 where an answer
differed, a check failed or a server grew; the files are then kept.
"""
import collections
import contextlib
import os
import random
import re
import shutil
import signal
import subprocess
import sys
import tempfile
import threading
import time

from program import IS_FAKE, PROGRAM, TOP, free_port, make_database, run
import guarddb

EVENTS, PIECES, LOOKS = 4000, 8, 10
LATE_EVENTS, LATE_PIECES, LATE_FIRST = 8000, 40, 2000      # of a round with one server; the least of its first piece
LOGINS = {'r': 'root', 'a': 'ann', 'b': 'bob', 'c': 'cid', 'd': 'dan'}
OPENS = [f'open {name} {login}' for name, login in LOGINS.items()]
CLOSES = [f'close {name}' for name in LOGINS]
READS = [f'r: SELECT * FROM {table}' for table in ('t', 'u', 'n')]
GROWTH = 4 << 20        # bytes by which a server may grow within a piece: rows, and what its allocator keeps
LATE_GROWTH = 2 << 20   # and from the end of its first piece to the end of its last
ANSWER = 40             # and so many for each byte of its largest answer, whose rows it held as values
LATEST = 0.002          # seconds after which a kill in the middle of a piece comes at the latest, from when its event is sent
MOST_UNDER_WAY = 3      # kills in the middle of a piece in a round: each may double what is to be compared

# What may have been done: the events before a piece, whether the one that was under way at a kill is among them (None where none
# was), and the answers of the piece.
Past = collections.namedtuple('Past', 'events is_done answers')
# What came of a piece: how many answers, the server's sizes that were seen, the bytes of the largest answer, the pasts that fit.
Played = collections.namedtuple('Played', 'answered sizes largest pasts')


# ---- scripts and their answers

def random_script(seed, events):
    words = [sys.executable, os.path.join(TOP, 'scripts', 'random_script.py'), str(seed), str(events)]
    return subprocess.run(words, stdout=subprocess.PIPE, check=True).stdout.decode().split('\n')[:-1]


def pieces_of(lines, count, first, random_numbers):
    """The script in so many pieces; the first has so many events at least."""
    cuts = [0, *sorted(random_numbers.sample(range(first, len(lines)), count - 1)), len(lines)]
    return [lines[begin:end] for begin, end in zip(cuts, cuts[1:])]


def answers_of(text):
    """The answers in what a script printed: a line each, and a line more for each row."""
    lines, at, found = text.split('\n')[:-1], 0, []
    while at < len(lines):
        count = int(lines[at].split(' ')[1]) if lines[at].startswith('rows ') else 0
        found.append('\n'.join(lines[at:at + count + 1]) + '\n')
        at += count + 1
    return found


def answers_over_memory(events, folder):
    path = os.path.join(folder, 'whole.script')
    with open(path, 'w', encoding='utf-8', newline='') as file:
        file.write(''.join(line + '\n' for line in events))
    status, output, messages = run('run', '--memory', 'root', path)
    assert status == 0, (status, messages)
    return answers_of(output)


def with_answers(events, is_done, piece, folder):
    """A past, and the answers of the piece that comes after it."""
    return Past(events, is_done, answers_over_memory(events + piece, folder)[len(events):])


# ---- servers

@contextlib.contextmanager
def serving(path, connections):
    """A server of so many connections, and its port."""
    port = free_port()
    words = [PROGRAM, 'serve', path, '--port', str(port), '--connections', str(connections)]
    server = subprocess.Popen(words, stderr=subprocess.DEVNULL)
    try:
        yield server, port
    finally:
        if server.poll() is None:
            server.kill()
        server.wait()


def sizes(server):
    """The memory in use of a process, in bytes, and the number of its open files."""
    with open(f'/proc/{server.pid}/status', encoding='ascii') as status:
        memory = next(int(line.split()[1]) << 10 for line in status if line.startswith('VmRSS'))
    return memory, len(os.listdir(f'/proc/{server.pid}/fd'))


def exchange(connection, line):
    numbers = {name: number for number, name in enumerate(LOGINS, 1)}
    if line.startswith('open '):
        _, name, login = line.split(' ', 2)
        return connection.exchange(guarddb.OPEN, numbers[name], login)
    if line.startswith('close '):
        return connection.exchange(guarddb.CLOSE, numbers[line[6:]])
    name, text = line.split(': ', 1)
    return connection.exchange(guarddb.STATEMENT, numbers[name], text)


def fitting(pasts, at, line, found):
    """The pasts after which this event is answered so."""
    fit = [past for past in pasts if past.answers[at] == found]
    assert fit, f'event {at}, {line!r}: {found!r}, and not {" or ".join({repr(past.answers[at]) for past in pasts})}'
    return fit


def play(server, port, piece, pasts, killing=None):
    """Sends a piece over a connection. `killing` has the event at which the server is killed, and how much later."""
    seen, largest = [], 0
    at_kill, killer = len(piece), None
    if killing:
        at_kill, killer = killing[0], threading.Timer(killing[1], server.kill)
    with guarddb.connect(port, wait=20, timeout=60) as connection:
        for at, line in enumerate(piece):
            if at == at_kill:
                killer.start()
            try:
                found = exchange(connection, line)
            except ConnectionError:
                if at < at_kill:
                    raise
                return Played(at, seen, largest, pasts)
            pasts, largest = fitting(pasts, at, line, found), max(largest, len(found))
            if at < at_kill and (at % max(1, len(piece) // LOOKS) == 0 or at == len(piece) - 1):
                seen.append(sizes(server))
    if killer:
        killer.join()
    return Played(len(piece), seen, largest, pasts)


def check_sizes(played):
    """That a server did not grow within a piece, and the most memory that it used."""
    memory = [size for size, _ in played.sizes]
    late, early = max(memory), max(memory[:len(memory) // 2 + 1])
    assert late <= early + GROWTH + ANSWER * played.largest, f'memory grew: {memory}, with {played.largest} bytes in an answer'
    assert len({files for _, files in played.sizes}) == 1, f'open files: {played.sizes}'
    return late


def check_file(path):
    assert run('check', path) == (0, 'ok CHECK\n', ''), 'the file is not whole'


# ---- rounds

def serve_piece(path, piece, pasts, end, random_numbers):
    """A piece with a server of its own, which ends by itself, or is killed behind the piece or within it."""
    killing = place_of_a_kill(pasts, random_numbers) if end == 'within' else None
    with serving(path, 1) as (server, port):
        played = play(server, port, piece, pasts, killing)
        if end == 'behind':
            server.send_signal(signal.SIGKILL)
        status = server.wait(20)
        may_end = played.answered == len(piece)     # where a kill comes late, too
        assert status == -signal.SIGKILL and end != 'nothing' or status == 0 and may_end, f'the server ended with {status}'
    check_file(path)
    return played


def place_of_a_kill(pasts, random_numbers):
    """An event that changes rows, or commits, and how many seconds later to kill."""
    answers = pasts[0].answers
    changes = [at for at, answer in enumerate(answers) if at and re.match('ok (INSERT|UPDATE|DELETE) [1-9]|ok COMMIT', answer)]
    return random_numbers.choice(changes or [len(answers) - 1]), random_numbers.random() * LATEST


def what_was_under_way(pasts):
    """What the answers said of the event that was under way."""
    found = {past.is_done for past in pasts}
    return 'either' if len(found) > 1 else 'done' if found.pop() else 'not done'


def run_short_servers(seed, folder, journal, counts):
    """A round in which each piece has a server of its own; the most memory of one."""
    random_numbers = random.Random(seed)
    pieces = pieces_of(random_script(seed, EVENTS), PIECES, 50, random_numbers)
    path, most, kills = os.path.join(folder, 'db'), 0, 0
    make_database(path, pages=4096, journal=journal)
    pasts, front, rest = [([], None)], [], []
    for number, piece in enumerate(pieces):
        piece = front + rest + piece
        known = [with_answers(events, is_done, piece, folder) for events, is_done in pasts]
        ends = ['nothing', 'nothing', 'behind'] + ['within'] * (kills < MOST_UNDER_WAY and number < PIECES - 1)
        end = random_numbers.choice(ends)
        played = serve_piece(path, piece, known, end, random_numbers)
        most = max(most, check_sizes(played))
        is_within = end == 'within' and played.answered < len(piece)
        counts.update(servers=1, within=is_within, behind=end != 'nothing' and not is_within, events=played.answered)
        if known[0].is_done is not None and played.answered > len(front):
            counts[what_was_under_way(played.pasts)] += 1
        pasts, rest = after(played, piece)
        kills += is_within
        front = OPENS + READS if is_within else OPENS
    return most


def after(played, piece):
    """The pasts after a piece of which so many events were answered, and the events that are still to come."""
    ended = [(past.events + piece[:played.answered] + CLOSES, None) for past in played.pasts]
    if played.answered == len(piece):
        return ended, []
    under_way = [(past.events + piece[:played.answered + 1] + CLOSES, True) for past in played.pasts]
    return [(events, False) for events, _ in ended] + under_way, piece[played.answered + 1:]


def run_long_server(seed, folder, journal, counts):
    """A round with one server; its memory after the first piece, and after the last, in bytes."""
    pieces = pieces_of(random_script(seed, LATE_EVENTS), LATE_PIECES, LATE_FIRST, random.Random(seed))
    pieces = pieces[:1] + [OPENS + piece for piece in pieces[1:]]
    path = os.path.join(folder, 'db')
    make_database(path, pages=4096, journal=journal)
    answers, ends, largest = answers_over_memory([line for piece in pieces for line in piece + CLOSES], folder), [], []
    with serving(path, LATE_PIECES) as (server, port):
        for piece in pieces:
            played = play(server, port, piece, [Past([], None, answers[:len(piece)])])
            answers = answers[len(piece) + len(CLOSES):]
            check_sizes(played)
            ends.append(played.sizes[-1])
            largest.append(played.largest)
            counts['events'] += played.answered
        assert server.wait(20) == 0, f'the server ended with {server.returncode}'
    check_file(path)
    assert len({files for _, files in ends}) == 1, f'open files after each piece: {ends}'
    first, last = ends[0][0], ends[-1][0]
    allowed = LATE_GROWTH + ANSWER * max(largest[1:])
    assert last <= first + allowed, f'memory grew: {ends}, with answers of {largest} bytes at most'
    return first, last


def main(seconds=3600, seed=None):
    if IS_FAKE:
        sys.exit('GUARDDB names no program')
    seed = random.randrange(1 << 31) if seed is None else seed
    print(f'seed {seed}', flush=True)
    end, rounds, counts, most, growths = time.monotonic() + seconds, 0, collections.Counter(), [], []
    while time.monotonic() < end:
        folder = tempfile.mkdtemp(prefix='guarddb-soak-')
        try:
            journal = rounds % 2 == 1
            if rounds % 3 == 2:
                first, last = run_long_server(seed + rounds, folder, journal, counts)
                growths.append(last - first)
            else:
                most.append(run_short_servers(seed + rounds, folder, journal, counts))
        except (AssertionError, OSError) as fault:
            sys.exit(f'round {rounds} of seed {seed}: {fault}; the files are in {folder}')
        shutil.rmtree(folder)
        rounds += 1
        if rounds % 20 == 0:
            print(f'{rounds} rounds, {counts["events"]} events', flush=True)
    print(summary(seed, rounds, counts, most, growths))


def summary(seed, rounds, counts, most, growths):
    said = (f'seed {seed}: {rounds} rounds, {counts["events"]} events answered as over memory; {counts["servers"]} servers of one '
            f'piece, {counts["behind"]} killed behind it and {counts["within"]} within it, where the event under way was done '
            f'{counts["done"]} times, not done {counts["not done"]} times, and {counts["either"]} times no answer told; '
            f'the most memory of one: {max(most) >> 20} MB')
    if growths:
        said += (f'; {len(growths)} servers of {LATE_PIECES} connections, which grew by {max(growths) >> 10} KB at most '
                 f'after the first, and by {sum(growths) // len(growths) >> 10} KB on average')
    return said


if __name__ == '__main__':
    main(*map(int, sys.argv[1:3]))
