#!/usr/bin/env python3
"""Power failures at any call, in three lives one after the other: python3 tests/crash_images.py [all | lies | COUNT] [SEED]

The program does six works over files: commits without a journal, with one and behind records that wait in it, commits over a file of format
1, which it migrates, and `journal on` and `off`. The power fails before each of its writes and syncs, and at the end. A sector of 512 bytes
is then as at the last sync, or something that was written to it since: all old, all new, every other one, each single one new or old, and
random ones. Each of these images is a life's end. The program goes on with it, twice with different work: commits, or `journal on` or `off`.
The power fails at a random place of that, and so it does of a third life. Then `check` and `run` open what is left.

At each opening the file holds what was answered until then, and what had been shown; or the one commit beside that which was under way, and
whole. COUNT of the first images are taken, evenly, 60 where none is said, and with the word `all` all of them. A line has the images of each
work, and the last one all of them; the status is 1 where an opening was refused, or showed something else. With the word `lies` the disk
takes some syncs and brings nothing to the medium, those of the first page and then those of the others: what that does is to be found. The
calls are noted by a library that `cc` compiles (tests/disks.py); where there is none this is left out. The program is the one in the
environment variable GUARDDB.
"""
import collections
import copy
import os
import random
import sys
import zlib

import disk_lives
import disks
from program import IS_FAKE, TOP, make_database, run

sys.dont_write_bytecode = True
sys.path.insert(0, os.path.join(TOP, 'crates', 'system_tests'))
import images       # noqa: E402

PAGES, LIVES, COUNT, SEED = 64, 3, 60, 1
FIRST_KEY, RANDOM_KINDS, TIMES, MOST_SINGLE = 100, 3, 2, 100

# What is done in a life: commits, or a word of `journal`.
Work = collections.namedtuple('Work', 'commits word')
# What a power failure left, by zlib, and the states that may be found in it.
Image = collections.namedtuple('Image', 'packed states')


class Wrong(Exception):
    """An opening that was refused, or showed what may not be there."""


def rows(numbers):
    return disk_lives.lines_of(disk_lives.Commit([disk_lives.insert(sorted(disk_lives.BASE), numbers)], disk_lives.BASE, frozenset()))[0]


def made(disk, numbers, journal, waiting=0):
    """A new file, with a journal or without, in which so many commits may wait."""
    disk.put({})
    make_database(disk.path(), pages=PAGES, journal=journal)
    small = ''.join(f'r: INSERT INTO t VALUES ({-key}, NULL)\nr: DELETE FROM t WHERE k = {-key}\n' for key in range(1, waiting + 1))
    status, printed, _ = run('run', disk.path(), '/dev/stdin', given=disk_lives.SETUP + rows(numbers) + small)
    assert (status, printed.count('refused')) == (0, 0), printed
    disk.settle()


def made_of_format_1(disk, numbers):
    """A file of format 1 with roles and privileges, which images.py spells."""
    grants = ['r: CREATE ROLE ann', 'r: GRANT ALL ON t TO ann WITH GRANT OPTION', 'r: GRANT SELECT ON t TO PUBLIC']
    database = images.database([*disk_lives.SETUP.splitlines(), rows(numbers).strip(), *grants])
    device = images.Device()
    device.put_store(1, 5, images.records_of(database, 1), 3)
    disk.put({'db': bytes(device.image)})


def first_lives(numbers):
    """Of each work its name, what makes its file, and what is done."""
    commits = lambda count: Work(disk_lives.commits_of(numbers, FIRST_KEY, count), None)
    yield 'commits', lambda disk: made(disk, numbers, False), commits(12)
    yield 'commits with a journal', lambda disk: made(disk, numbers, True), commits(16)
    yield 'commits behind records', lambda disk: made(disk, numbers, True, waiting=2), commits(10)
    yield 'commits and a migration', lambda disk: made_of_format_1(disk, numbers), commits(4)
    yield 'journal on', lambda disk: made(disk, numbers, False), Work([], 'on')
    yield 'journal off', lambda disk: made(disk, numbers, True, waiting=2), Work([], 'off')


def notes_of(disk, work):
    """The notes of a life, which ends well, or leaves a file of format 1 without a journal."""
    words = ['journal', disk.path(), work.word] if work.word else ['run', disk.path(), '/dev/stdin']
    status, printed, messages = disk.run(*words, given=disk_lives.script_of(work.commits) if not work.word else '')
    if work.word and messages.startswith('guarddb: Format\n'):       # one of format 1, before a migration
        return disk.new_notes()
    if status or 'refused' in printed:
        raise Wrong(f'{words[0]}: {status} {printed[:200]!r} {messages!r}')
    return disk.new_notes()


def is_call(note):
    return note.kind in 'ws'


def choices(disk, numbers):
    """The kinds of images that a power failure leaves now: each says which of a sector's values is there, by how many sectors were written."""
    count = sum(len(file.written) for file in disk.files.values())
    kinds = [lambda at: 0, lambda at: -1, lambda at: -(at % 2)]
    singles = [] if disk.lies else range(count) if count <= MOST_SINGLE else numbers.sample(range(count), MOST_SINGLE)
    kinds += [lambda at, one=one: -(at == one) for one in singles] + [lambda at, one=one: -(at != one) for one in singles]
    random_numbers = [[numbers.random() for _ in range(count)] for _ in range(RANDOM_KINDS)]
    return kinds + [lambda at, picks=picks: picks[at] for picks in random_numbers]


def left(disk, kind):
    """What a power failure leaves of the file, by a kind of images."""
    at = iter(range(1 << 30))

    def choose(_, versions):
        pick = kind(next(at))
        return versions[int(pick * len(versions)) if isinstance(pick, float) else pick]
    return disk.left(choose, lambda name: True)['db']


def told_states(states, work, notes):
    """The states that may be found after a power failure behind such notes of a life."""
    found, printed = copy.deepcopy(states), ''.join(note.data.decode() for note in notes if note.kind == 'a')
    if not work.word:
        told = disk_lives.told(printed, work.commits)
        if not found.live(told, work.commits):
            raise Wrong(f'it showed {sorted(told.shown)}, and not one of {[sorted(state) for state in states.possible]}')
    return found


def all_images(disk, states, work, numbers):
    """The images of all power failures in a life, each once."""
    notes, seen = notes_of(disk, work), set()
    for at, note in enumerate(notes + [None]):
        if note is None or is_call(note):
            told = told_states(states, work, notes[:at])
            for kind in choices(disk, numbers):
                data = left(disk, kind)
                key = hash(data), frozenset(told.possible)
                if key not in seen:
                    seen.add(key)
                    yield Image(zlib.compress(data, 1), told)
        if note:
            disk.take(note)


def one_image(disk, image, work, numbers):
    """An image of one power failure in a life that begins with an image."""
    disk.put({'db': zlib.decompress(image.packed)})
    notes = notes_of(disk, work)
    stops = [at for at, note in enumerate(notes) if is_call(note)] + [len(notes)]
    stop = numbers.choice(stops)
    for note in notes[:stop]:
        disk.take(note)
    data = left(disk, numbers.choice(choices(disk, numbers)))
    return Image(zlib.compress(data, 1), told_states(image.states, work, notes[:stop]))


def open_it(disk, image):
    """Opens what is left at the end."""
    disk.put({'db': zlib.decompress(image.packed)})
    checked = disk.run('check', disk.path())
    if checked[:2] != (0, 'ok CHECK\n'):
        raise Wrong(f'check: {checked}')
    told_states(image.states, Work([], None), notes_of(disk, Work([], None)))


def go_on(disk, image, numbers):
    """The lives behind the first, and the opening at the end."""
    for life in range(2, LIVES + 1):
        is_switch = numbers.random() < 0.2
        commits = disk_lives.commits_of(numbers, FIRST_KEY * life, numbers.choice([0, 1, 2, 4, 8]))
        work = Work([], numbers.choice(['on', 'off'])) if is_switch else Work(commits, None)
        image = one_image(disk, image, work, numbers)
    open_it(disk, image)


def try_images(disk, name, taken, seed):
    """How many of these images of a first life led to something wrong, with a line for each."""
    wrong = 0
    for at, (image, time) in enumerate((image, time) for image in taken for time in range(TIMES)):
        try:
            go_on(disk, image, random.Random(f'{seed} {name} {at}'))
        except Wrong as fault:
            wrong += 1
            print(f'{name}, image {at // TIMES}, time {time}: {fault}')
    return wrong


def try_all(disk, most, seed):
    """How many lines of lives had something wrong, of all or of so many images of a first life."""
    failed, count, numbers, lives = 0, 0, random.Random(seed), []
    for name, make, first in first_lives(random.Random(seed)):
        make(disk)
        lives.append((name, list(all_images(disk, disk_lives.States(disk_lives.BASE), first, numbers))))
    share = most and most / sum(len(found) for _, found in lives)
    for name, found in lives:
        taken = [image for at, image in enumerate(found) if not share or int(at * share) != int((at + 1) * share)]
        wrong = try_images(disk, name, taken, seed)
        print(f'{name}: {len(taken)} of {len(found)} images of a first life, {len(taken) * TIMES} each of a second and a third, {wrong} failed',
              flush=True)
        failed, count = failed + wrong, count + len(taken)
    later = count * TIMES
    print(f'seed {seed}: {count + later * (LIVES - 1)} images, of which {later} of a third life; {later * (LIVES + 1)} openings, {failed} failed')
    return failed


def main(words):
    if IS_FAKE or not disks.is_there():
        return 0
    what, seed = (words or [COUNT])[0], int(words[1]) if len(words) > 1 else SEED
    with disks.scratch() as work:
        disk = disks.Disk(disks.compiled(work), work, disks.SECTOR)
        if what != 'lies':
            return 1 if try_all(disk, None if what == 'all' else int(what), seed) else 0
        found = []
        for disk.lies in ('first', 'others'):
            print(f'a disk that lies of syncs, {disk.lies}:')
            found.append(try_all(disk, COUNT, seed))
        return 0 if all(found) else 1


if __name__ == '__main__':
    sys.exit(main(sys.argv[1:]))
