#!/usr/bin/env python3
"""Copies the file of a database, also while a server has it: python3 clients/backup.py FILE OUT [--program PATH]

    python3 clients/backup.py shop.db backups/shop-monday.db

The server of FILE is found by its lock, and held still while the file is read: so OUT is what a kill at that moment would leave, with every
commit that was acknowledged before, and the one in progress whole or not at all. Then the server goes on, also where this program is killed
meanwhile. A file that nobody has open is locked instead. The copy is made as OUT.partial, checked by `guarddb check`, brought to the disk,
and gets the name OUT then. Nothing is replaced. docs/reliability.md says more.

Prints `ok BACKUP` and ends with status 0; with 1 and the reason on standard error where no copy was made, or where
that cannot be printed; with 2 for words that cannot be.
"""
import argparse
import contextlib
import fcntl
import os
import signal
import subprocess
import sys
import time

from guarddb_layout import program

FAULT = 1
LOCK_WAIT = 5           # seconds in which who has the file is looked for
STILL_WAIT = 5          # seconds in which a server stands still that was told to
PIECE = 1 << 20         # bytes that are read at once
CLONE = 0x40049409      # FICLONE of ioctl_ficlone(2): the new file shares the blocks of the old one, where the file system can do that
ENDINGS = (signal.SIGINT, signal.SIGTERM, signal.SIGHUP)


class NotMade(Exception):
    """Why no copy was made."""


# ---- who has the file

def holders_of(file):
    """The processes that may have the lock on an open file: /proc/locks names them by the file's number (proc_locks(5)). Of another file with
    that number they may be, too, and 0 is one that cannot be seen."""
    number = str(os.fstat(file.fileno()).st_ino)
    with open('/proc/locks', encoding='ascii') as locks:
        lines = [line.split() for line in locks]
    return [int(words[4]) for words in lines if words[1] == 'FLOCK' and words[3] == 'WRITE' and words[5].rpartition(':')[2] == number]


def has_open(process, file):
    """Whether a process has a file open."""
    folder, found = f'/proc/{process}/fd', os.fstat(file.fileno())
    for name in os.listdir(folder):
        with contextlib.suppress(OSError):
            if os.path.samestat(os.stat(f'{folder}/{name}'), found):
                return True
    return False


def states_of(process):
    """How each thread of a process stands, by the letters of proc_pid_stat(5)."""
    for thread in os.listdir(f'/proc/{process}/task'):
        with open(f'/proc/{process}/task/{thread}/stat', encoding='utf-8', errors='replace') as file:
            yield file.read().rpartition(')')[2].split()[0]


def holder_of(file, path):
    """The process that has the lock on an open file, or None where none is found that has it. A NotMade for one that is not to be held
    still: of another user, or held still already."""
    for process in filter(None, holders_of(file)):
        try:
            if has_open(process, file):
                if 'T' in states_of(process):
                    raise NotMade(f'{path}: process {process}, which has it open, is held still by somebody else')
                return process
        except FileNotFoundError:
            continue        # it has ended meanwhile
        except PermissionError:
            raise NotMade(f'{path}: process {process} of another user has it open: run this as that user, or as root') from None
    return None


# ---- held still

@contextlib.contextmanager
def held_still(process):
    """Holds a process still. A second process lets it go on, at the end or where this one is killed."""
    read_end, write_end = os.pipe()
    helper = os.fork()
    if not helper:
        let_go(process, read_end, write_end)
    os.close(read_end)
    try:
        os.kill(process, signal.SIGSTOP)
        wait_until_still(process)
        yield
    finally:
        os.close(write_end)
        os.waitpid(helper, 0)


def let_go(process, read_end, write_end):
    """Waits for the end of the program that made this process, or for its word; lets the other go on, and ends."""
    try:
        os.setsid()
        os.close(write_end)
        for number in ENDINGS:
            signal.signal(number, signal.SIG_IGN)
        os.read(read_end, 1)
    finally:
        with contextlib.suppress(ProcessLookupError):
            os.kill(process, signal.SIGCONT)
        os._exit(0)


def wait_until_still(process):
    """A process is told to stand still, and does so between two calls of the system."""
    end = time.monotonic() + STILL_WAIT
    while any(state != 'T' for state in states_of(process)):
        if time.monotonic() > end:
            raise NotMade(f'process {process} did not stand still within {STILL_WAIT} seconds')
        time.sleep(0.001)


@contextlib.contextmanager
def kept_from_changes(file, path):
    """Keeps a file as it is: by its lock, or by holding still who has it. Gives whether somebody has it."""
    end = time.monotonic() + LOCK_WAIT
    while True:
        try:
            fcntl.flock(file, fcntl.LOCK_SH | fcntl.LOCK_NB)
            yield False
            return
        except BlockingIOError:
            process = holder_of(file, path)
        if process:
            with held_still(process):
                yield True
                if any(state != 'T' for state in states_of(process)):
                    raise NotMade(f'somebody let process {process} go on while {path} was copied')
            return
        if time.monotonic() > end:
            raise NotMade(f'{path}: who has it open cannot be seen here, as from within a container')
        time.sleep(0.01)


# ---- the copy

def copy_bytes(file, copy):
    """Copies what stands in a file. Where the file system can share blocks none is read."""
    try:
        fcntl.ioctl(copy, CLONE, file.fileno())
    except OSError:
        file.seek(0)
        while piece := file.read(PIECE):
            copy.write(piece)


def bring_to_disk(path):
    place = os.open(path, os.O_RDONLY)
    try:
        os.fsync(place)
    finally:
        os.close(place)


def copy_file(path, copy):
    """Copies a file under its lock, or while its server stands still; gives for how many seconds it did, or None."""
    with open(path, 'rb', buffering=0) as file, kept_from_changes(file, path) as is_served:
        if not os.path.samestat(os.fstat(file.fileno()), os.stat(path)):
            raise NotMade(f'{path}: another file has this name meanwhile: try again')
        began = time.monotonic()
        copy_bytes(file, copy)
        copy.flush()
        took = time.monotonic() - began
    return took if is_served else None


def private(path, flags):
    """What policies hide stands in it: nobody else may read it."""
    return os.open(path, flags, 0o600)


def check(program, partial):
    done = subprocess.run([program, 'check', partial], stdin=subprocess.DEVNULL, capture_output=True, text=True)
    if (done.returncode, done.stdout) != (0, 'ok CHECK\n'):
        raise NotMade(f'the copy is not whole: {done.stderr.strip() or f"{program} check ended with status {done.returncode}"}')


def give_name(partial, out):
    """Names the copy, which replaces nothing."""
    bring_to_disk(partial)
    os.link(partial, out)
    os.unlink(partial)
    bring_to_disk(os.path.dirname(out) or '.')


def remove_left(path):
    with contextlib.suppress(FileNotFoundError):
        os.unlink(path)


def new_file(path):
    try:
        return open(path, 'xb', opener=private)
    except FileExistsError:
        raise NotMade(f'{path} is there already, left by a copy that did not end: remove it') from None


def back_up(path, out, program):
    """Makes the copy; gives for how many seconds a server stood still, or None. Nothing of it is left where it is not made."""
    partial = f'{out}.partial'
    if os.path.lexists(out):
        raise NotMade(f'{out} is there already')
    with contextlib.ExitStack() as stack:
        copy = stack.enter_context(new_file(partial))
        stack.callback(remove_left, partial)
        took = copy_file(path, copy)
        copy.close()
        check(program, partial)
        give_name(partial, out)
    return took


# ---- the program

def given_words():
    words = argparse.ArgumentParser(description='Copies the file of a Guarddb database, also while a server has it.')
    words.add_argument('file', metavar='FILE', help='the file of a database')
    words.add_argument('out', metavar='OUT', help='the new file')
    words.add_argument('--program', metavar='PATH', default=program(), help='the program guarddb, which checks the copy')
    return words.parse_args()


def reason_of(fault):
    if isinstance(fault, OSError) and fault.errno:
        name = fault.filename if isinstance(fault.filename, str) else ''
        return f'{name}: {os.strerror(fault.errno)}' if name else os.strerror(fault.errno)
    return str(fault)


def end_by(number, _):
    """A signal ends the program as a fault does: nothing is left of it, and the server goes on."""
    raise NotMade(f'ended by {signal.Signals(number).name}')


def main():
    words = given_words()
    for number in ENDINGS:
        signal.signal(number, end_by)
    try:
        took = back_up(words.file, words.out, words.program)
        print('ok BACKUP', flush=True)
        if took is not None:
            print(f'backup.py: the server stood still for {took:.3f} seconds', file=sys.stderr)
    except (NotMade, OSError) as fault:
        print(f'backup.py: {reason_of(fault)}', file=sys.stderr)
        return FAULT
    return 0


if __name__ == '__main__':
    sys.exit(main())
