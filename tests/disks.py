"""A folder on a disk that fails, and what a power failure leaves of it: tests/failing_disk.c notes what programs do there.

The notes are taken up in their order. A unit of a file, a page of the cache or a sector, is on the medium as it was at the last sync that
succeeded. A sync that fails brings each unit that was written since to the medium or not, which its caller says. Either way it then counts
as clean: whoever reads the file finds it, and no later sync brings it to the medium unless it is written again. A power failure leaves of
each unit what is on the medium, or something that was written to it since.
"""
import collections
import os
import shutil
import signal
import struct
import subprocess
import sys
import tempfile

from program import PROGRAM, TESTS

COMPILER = shutil.which('cc')
SECTOR, PAGE = 512, 4096
HEAD = struct.Struct('<cbQqI')
ZEROS = {size: bytes(size) for size in (SECTOR, PAGE)}

# A note: a kind (`w` a write, `s` a sync, `n` and `u` a name that came or went, `a` what was printed), whether it was done, the inode, the
# place, and the bytes.
Note = collections.namedtuple('Note', 'kind done inode place data')


def compiled(folder):
    """The library, compiled into a folder."""
    library = os.path.join(folder, 'failing_disk.so')
    subprocess.run([COMPILER, '-O1', '-shared', '-fPIC', '-o', library, os.path.join(TESTS, 'failing_disk.c'), '-ldl'], check=True)
    return library


def notes_of(path):
    """The notes of a file."""
    data, at, found = b'', 0, []
    if os.path.exists(path):
        with open(path, 'rb') as file:
            data = file.read()
    while at < len(data):
        kind, done, inode, place, count = HEAD.unpack_from(data, at)
        at += HEAD.size + count
        found.append(Note(kind.decode(), bool(done), inode, place, data[at - count:at]))
    return found


class File:
    """A file: its units on the medium, as they are read, and what was written to each since the last sync."""

    def __init__(self, data, unit):
        self.unit = unit
        self.read = {at: data[at * unit:(at + 1) * unit] for at in range(len(data) // unit)}
        self.medium = dict(self.read)
        self.written = {}

    def write(self, place, data):
        while data:
            at, skipped = divmod(place, self.unit)
            part = data[:self.unit - skipped]
            before = self.read.get(at, ZEROS[self.unit])
            self.read[at] = before[:skipped] + part + before[skipped + len(part):]
            self.written.setdefault(at, []).append(self.read[at])
            place, data = place + len(part), data[len(part):]

    def sync(self, reaches=lambda unit: True):
        """Brings those of the written units to the medium that reach it; all are clean then."""
        self.medium |= {at: versions[-1] for at, versions in self.written.items() if reaches(at)}
        self.written = {}

    def left(self, choose):
        """The bytes that a power failure leaves, where `choose` gives the unit of each place that was written, of all that it may be: what
        is on the medium first, then what was written since."""
        units = self.medium | {at: choose(at, [self.medium.get(at, ZEROS[self.unit])] + versions)
                               for at, versions in sorted(self.written.items())}
        return b''.join(units.get(at, ZEROS[self.unit]) for at in range(max(units) + 1)) if units else b''


class Disk:
    """A folder, `folder`, whose files are on a disk, for programs that run with `environment`. The disk may lie, of syncs of the first page
    (`first`) or of those of other pages (`others`): such a sync succeeds, and brings nothing to the medium."""

    def __init__(self, library, work, unit):
        self.library, self.unit, self.lies = library, unit, None
        self.folder, self.log = os.path.join(work, 'disk'), os.path.join(work, 'log')
        shutil.rmtree(self.folder, ignore_errors=True)
        os.makedirs(self.folder)
        self.settle()

    def path(self, name='db'):
        return os.path.join(self.folder, name)

    def settle(self):
        """Takes all that is in the folder to be on the medium."""
        self.files, self.names, self.changes = {}, {}, []
        for name in os.listdir(self.folder):
            with open(self.path(name), 'rb') as file:
                inode = os.fstat(file.fileno()).st_ino
                self.files[inode] = File(file.read(), self.unit)
                self.names[name] = inode
        self.forget()

    def forget(self):
        if os.path.exists(self.log):
            os.remove(self.log)

    def put(self, files):
        """Makes the folder one of such files, by their names, all of them on the medium."""
        for name in os.listdir(self.folder):
            os.remove(self.path(name))
        for name, data in files.items():
            with open(self.path(name), 'wb') as file:
                file.write(data)
        self.settle()

    def environment(self, fails=None, kills=False, writes=0):
        """That of a process whose Nth sync fails (`N`) or its Nth write (`wN`), after so many bytes, or that is killed there."""
        more = {'DISK_FAILS': str(fails), 'DISK_WRITES': str(writes)} if fails else {}
        more |= {'DISK_KILLS': '1'} if kills else {}
        return os.environ | more | {'LD_PRELOAD': self.library, 'DISK_FOLDER': self.folder, 'DISK_LOG': self.log}

    def run(self, *words, given='', **fault):
        """Runs the program; its status, its output and its messages."""
        done = subprocess.run([PROGRAM, *words], input=given.encode(), capture_output=True, env=self.environment(**fault), check=False)
        return done.returncode, done.stdout.decode(), done.stderr.decode()

    def new_notes(self):
        """The notes since they were last taken."""
        found = notes_of(self.log)
        self.forget()
        return found

    def take(self, note, reaches=lambda unit: False):
        """Takes a note up; of a sync that fails those written units reach the medium that `reaches` says."""
        if note.kind == 'w':
            self.files.setdefault(note.inode, File(b'', self.unit)).write(note.place, note.data)
        elif note.kind == 's' and note.inode == os.stat(self.folder).st_ino:
            if note.done:
                self.names = named(self.names, self.changes)
                self.changes = []
        elif note.kind == 's':
            file = self.files.setdefault(note.inode, File(b'', self.unit))
            of = 'first' if any(at * self.unit < PAGE for at in file.written) else 'others'
            if of != self.lies:
                file.sync(*[] if note.done else [reaches])
        elif note.kind in 'nu':
            self.changes.append((note.data.decode(), note.inode))

    def left(self, choose, choose_name):
        """What a power failure leaves: the bytes of each file by its name. Of the names that came and went since the folder was synced
        those are done that `choose_name` says."""
        names = named(self.names, [change for change in self.changes if choose_name(change)])
        return {name: self.files[inode].left(choose) if inode in self.files else b'' for name, inode in names.items()}


def named(names, changes):
    """The inodes by their names after some came and went: of one that goes the inode is 0."""
    found = dict(names)
    for name, inode in changes:
        found[name] = inode
    return {name: inode for name, inode in found.items() if inode}


def scratch():
    """A new folder for a while, below TMPDIR where that is set, and else in memory where it can be: a sync takes no time there."""
    signal.signal(signal.SIGTERM, lambda number, frame: sys.exit(128 + number))
    in_memory = 'TMPDIR' not in os.environ and os.access('/dev/shm', os.W_OK)
    return tempfile.TemporaryDirectory(prefix='guarddb-', dir='/dev/shm' if in_memory else None)


def is_there():
    """Whether there is a compiler; else a line says that there is none."""
    if not COMPILER:
        print('there is no cc: disks that fail are left out', file=sys.stderr)
    return bool(COMPILER)
