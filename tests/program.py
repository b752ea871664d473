"""The program that the tests try: what the environment variable GUARDDB names, or else fake_guarddb.py."""
import contextlib
import os
import random
import signal
import socket
import struct
import subprocess
import sys

TESTS = os.path.dirname(os.path.abspath(__file__))
TOP = os.path.dirname(TESTS)
PROGRAM = os.path.abspath(os.environ.get('GUARDDB') or os.path.join(TESTS, 'fake_guarddb.py'))
PATIENCE = 300      # seconds that a test waits for what is to come, which on a busy machine takes long
IS_FAKE = not os.environ.get('GUARDDB')
sys.stderr.write(f'The program is {PROGRAM}{", since GUARDDB names none" if IS_FAKE else ""}.\n')

sys.path.insert(0, os.path.join(TOP, 'clients'))

# What is started in the background of a script ignores Ctrl-C, and what that starts would, too; what is handled here it does not.
for ignored in (signal.SIGHUP, signal.SIGINT, signal.SIGQUIT):
    if signal.getsignal(ignored) is signal.SIG_IGN:
        signal.signal(ignored, lambda number, frame: None)


def run(*words, given=''):
    """Runs the program; its status, its output and its messages."""
    done = subprocess.run([PROGRAM, *words], input=given.encode(), capture_output=True)
    return done.returncode, done.stdout.decode(), done.stderr.decode()


def of_program(lines):
    """What the program answers to each event of a script over memory."""
    return of_answers(lines, *run(given='\n'.join(lines) + '\n'))


def of_answers(lines, status, printed, messages):
    """What a run of a script printed, by its events."""
    assert status == 0, (lines, status, messages)
    answers, left = [], iter(printed.split('\n')[:-1])
    for line in left:
        count = int(line[5:]) if line.startswith('rows ') else 0
        answers.append('\n'.join([line] + [next(left) for _ in range(count)]))
    assert len(answers) == len(lines), (lines, answers)
    return answers


def python_with(module):
    """Python's own interpreter, or the system's, for which a package has the module; None where none has it."""
    return next((python for python in (sys.executable, '/usr/bin/python3')
                 if os.path.exists(python) and subprocess.run([python, '-c', f'import {module}'], capture_output=True).returncode == 0), None)


def make_database(path, pages=256, admin='root', journal=False):
    done = run('format', path, '--pages', str(pages), '--admin', admin, *['--journal'] * journal)
    assert done == (0, 'ok FORMAT\n', ''), done


def frame(kind, number, text):
    """The bytes of a frame."""
    payload = text.encode()
    return struct.pack('>IBI', 5 + len(payload), kind, number) + payload


def free_port():
    """A port below those that systems give to clients, so that nobody connects to himself."""
    while True:
        port = random.randrange(20000, 32000)
        with contextlib.suppress(OSError), socket.socket() as listener:
            listener.bind(('127.0.0.1', port))
            return port


@contextlib.contextmanager
def served(path, connections=1, socket_path=None, idle=None):
    """A server over a database, on a port or on a socket at a path; gives its place, and in the end waits for the server's own end."""
    place = socket_path or free_port()
    where = ['--socket', place] if socket_path else ['--port', str(place)]
    limit = ['--idle', str(idle)] if idle else []
    server = subprocess.Popen([PROGRAM, 'serve', path, *where, '--connections', str(connections), *limit],
                              stdout=subprocess.DEVNULL, stderr=subprocess.PIPE)
    try:
        yield place
        _, messages = server.communicate(timeout=PATIENCE)
        assert server.returncode == 0, (server.returncode, messages.decode())
    finally:
        if server.poll() is None:
            server.kill()
            server.communicate()
