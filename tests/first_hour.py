#!/usr/bin/env python3
"""Tries README.md as a newcomer does: in a clean clone, on two processors, each of its commands in their order: first_hour.py [CLONE]

`./guarddb --version` and `--help` answer within a second. Then the program is built without a proof, the first script runs, and the commands
of "Files and sockets" follow, those of the second terminal beside the server. `--prove` and the tests are left out. A line tells of each
command how long it took, by the clock and of a processor, and the last line of all. The status is 1 where one failed, or where all took over
ten minutes of a processor, as long as they take by the clock on a quiet machine. CLONE is a clean clone; where none is given one is made of
what is committed here, and taken away in the end.
"""
import os
import re
import resource
import shutil
import subprocess
import sys
import tempfile
import time

TOP = os.path.dirname(os.path.dirname(os.path.abspath(__file__)))
SOON, ALL = 1, 600      # seconds
LEFT_OUT = ('./guarddb --prove', './test', 'rt ci', '.ci/run', './try_')


class Wrong(Exception):
    """What was not as the page has it."""


def blocks(folder):
    """The commands of each ``` block of README.md, but for those that take hours."""
    with open(os.path.join(folder, 'README.md'), encoding='utf-8') as file:
        found = re.findall(r'^```\n(.*?)^```$', file.read(), re.M | re.S)
    lines = [[line.partition('  #')[0].strip() for line in block.splitlines()] for block in found if not block.startswith('open ')]
    return [[line for line in block if line and not line.startswith(LEFT_OUT)] for block in lines]


def processor_time():
    """The seconds that processors have worked for what was run here, and has ended."""
    used = resource.getrusage(resource.RUSAGE_CHILDREN)
    return used.ru_utime + used.ru_stime


def timed(folder, line, limit=None, given=''):
    """Runs a command of the page; what it prints."""
    began, before = time.monotonic(), processor_time()
    done = subprocess.run(['bash', '-c', line], cwd=folder, input=given, capture_output=True, text=True)
    spent = processor_time() - before
    print(f'{time.monotonic() - began:6.1f} s {spent:6.1f} s  {line}', flush=True)
    if done.returncode or limit and spent > limit:
        raise Wrong(f'status {done.returncode} after {spent:.1f} s\n{done.stdout[-2000:]}{done.stderr[-2000:]}')
    return done.stdout


def expects(found, expected):
    if found != expected:
        raise Wrong(f'it printed\n{found}and not\n{expected}')


def serve(folder, line, second):
    """Runs the server of the page, and what stands for the second terminal until it ends."""
    server = subprocess.Popen(['bash', '-c', 'exec ' + line], cwd=folder, stdout=subprocess.DEVNULL, stderr=subprocess.PIPE, text=True)
    try:
        while not server.stderr.readline().startswith('guarddb: listening on '):
            if server.poll() is not None:
                raise Wrong(f'{line}: it ended with {server.returncode}')
        for _ in range(2):
            expects(timed(folder, second, given='SELECT 1;\n'), ' 1\n---\n 1\n(1 row)\n')
        expects(server.wait(timeout=60), 0)
        print(f'                   {line}')
    finally:
        server.kill()
        server.communicate()


def first_hour(folder):
    for word in ('--version', '--help'):
        timed(folder, f'./guarddb {word}', SOON)
    timed(folder, './guarddb --unproved')
    with open(os.path.join(folder, 'crates', 'guarddb', 'stdout'), encoding='utf-8') as file:
        answers = file.read()
    first, *_, files, second = [block for block in blocks(folder) if block]
    expects(timed(folder, first[0]), answers)
    for line in files[:-1]:
        timed(folder, line, given='\\q\n')
    serve(folder, files[-1], second[0])
    timed(folder, './guarddb --version', SOON)


def main(words):
    os.sched_setaffinity(0, sorted(os.sched_getaffinity(0))[:2])
    made = None if words else tempfile.mkdtemp(prefix='guarddb-clone-')
    folder, began = words[0] if words else os.path.join(made, 'guarddb'), time.monotonic()
    try:
        if made:
            timed(made, f'git clone --quiet --no-hardlinks "{TOP}" guarddb')
        first_hour(folder)
        print(f'{time.monotonic() - began:6.1f} s {processor_time():6.1f} s  together')
        if processor_time() > ALL:
            raise Wrong(f'that is more than {ALL} s')
    except Wrong as wrong:
        print(wrong)
        return 1
    finally:
        if made:
            shutil.rmtree(made)
    return 0


if __name__ == '__main__':
    sys.exit(main(sys.argv[1:]))
