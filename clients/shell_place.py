"""The server of clients/shell.py, its streams, and its faults."""
import contextlib
import os
import re
import shutil
import signal
import stat
import subprocess
import sys
import tempfile

import guarddb
import guarddb_layout

OWN, CONNECTION, REFUSED = 1, 2, 3      # exit statuses, beside 0
NO_READER = 128 + signal.SIGPIPE        # stands for the end by this signal
SOCKET = 'socket'                       # the name of one in its folder
LONGEST_PATH = 107                      # bytes of its path
END_OF_SERVER = 20                      # seconds that a server has to end after its connection


NOT_DESCRIBED = ("A served database cannot be described yet: 'guarddb describe FILE' tells of a file that no server has open, and so does this "
                 "command in a shell over the file.")


class Fault(Exception):
    """What could not be done: the exit status, if it ends the shell, and a message."""
    status, text = property(lambda self: self.args[0]), property(lambda self: self.args[1])


class End(Fault):
    """Ends the shell, with a status and a message, which may be empty."""


def say(text, end='\n'):
    try:
        print(text, end=end, flush=True)
    except OSError as fault:
        os.dup2(os.open(os.devnull, os.O_WRONLY), 1)        # for what Python still holds
        if isinstance(fault, BrokenPipeError):              # who read it has enough, such as head
            raise End(NO_READER, '') from None
        raise End(OWN, f'Standard output failed: {cause(fault)}.') from None


def warn(text):
    try:
        print(text, file=sys.stderr, flush=True)
    except OSError:
        os.dup2(os.open(os.devnull, os.O_WRONLY), 2)        # else Python tries it once more at its end, and changes the status


def cause(fault):
    return getattr(fault, 'strerror', None) or str(fault).rstrip('.')


def open_standard_streams():
    """Opens the null device for each closed standard stream, so that no other file takes its number; gives their names."""
    closed = []
    for number, name in enumerate(('input', 'output', 'error')):
        try:
            os.fstat(number)
        except OSError:
            os.open(os.devnull, os.O_RDWR)
            closed.append(name)
    sys.stdout, sys.stderr = (stream or open(os.devnull, 'w', encoding='utf-8') for stream in (sys.stdout, sys.stderr))
    for stream in (sys.stdout, sys.stderr):
        stream.reconfigure(errors='backslashreplace')       # for characters that the terminal lacks
    return closed


def end_by(number):
    """Ends the process by a signal, so that the caller sees this."""
    signal.signal(number, signal.SIG_DFL)
    os.kill(os.getpid(), number)


@contextlib.contextmanager
def signals_held():
    """Delays signals that would end the shell, until it knows what it has made or started, or was given, or has taken that away."""
    held = []
    handlers = {number: signal.signal(number, lambda number, _: held.append(number))
                for number in (signal.SIGINT, signal.SIGTERM, signal.SIGHUP)}
    try:
        yield
    finally:
        for number, handler in handlers.items():
            signal.signal(number, handler)
        if held:
            signal.raise_signal(held[0])


def new_folder():
    """A new folder for a socket, which no other user can enter: in /tmp if the path would be too long elsewhere."""
    try:
        folder = tempfile.mkdtemp(prefix='guarddb-')
        if len(os.fsencode(os.path.join(folder, SOCKET))) > LONGEST_PATH:
            os.rmdir(folder)
            folder = tempfile.mkdtemp(prefix='guarddb-', dir='/tmp')
        return folder
    except OSError as fault:
        raise Fault(CONNECTION, f'There is no folder for a socket: {cause(fault)}.') from None


class Place:
    """The place of a server: a port, a socket, or a file, for which a server of one connection is started here. A server that is not
    started here may ask for the password of a role, and be asked for the names of columns, with `names`."""
    def __init__(self, name, program, timeout, passwords=None, names=False):
        self.name, self.program, self.timeout, self.passwords, self.names = name, program, timeout, passwords, names
        self.user = None        # the role whose password was shown
        self.server = self.folder = self.messages = None
        self.begun = ''         # of a message that is not yet there to its end
        self.is_port = re.fullmatch('[0-9]{1,5}', name) is not None
        self.is_file = not self.is_port and not stat.S_ISSOCK(self.mode())

    def mode(self):
        try:
            return os.stat(self.name).st_mode
        except (OSError, ValueError) as fault:
            hint = f'\nHINT:  Start its server, or make a new database: guarddb format {self.name} --pages 64 --admin ROLE'
            hint = hint if isinstance(fault, FileNotFoundError) else ''
            raise End(CONNECTION, f'{self.name} is not a port, a socket or a file: {cause(fault)}.{hint}') from None

    def connect(self, role=None):
        """A connection, over which the role's password is shown where one is given."""
        if self.is_file:
            self.stop(at_once=True)         # a start that was given up
            return self.start()
        if self.is_port and not 0 < int(self.name) < 65536:
            raise Fault(CONNECTION, f'There is no port {self.name}: they are 1 to 65535.')
        password = self.passwords and self.passwords.find(self.name, role)
        self.user = role if password else None
        try:
            return guarddb.connect(int(self.name) if self.is_port else self.name, timeout=self.timeout, user=self.user, password=password,
                                   names=self.names)
        except guarddb.Refused as refusal:
            self.passwords.forget(role)
            raise Fault(REFUSED, f'ERROR:  {refusal}') from None
        except ValueError as fault:
            self.passwords.forget(role)
            raise Fault(REFUSED, f'No password was shown: {fault}.') from None
        except guarddb.BadServer as fault:
            raise Fault(CONNECTION, f'No password was shown, and the connection is closed: {fault}.') from None
        except OSError as fault:
            raise Fault(CONNECTION, f'No server at {self.name}: {cause(fault)}.') from None

    def start(self):
        """Starts the server and connects to it."""
        with signals_held():
            self.folder = new_folder()
        path, messages = os.path.join(self.folder, SOCKET), os.path.join(self.folder, 'messages')
        words = [self.program, 'serve', os.path.abspath(self.name), '--socket', path, '--connections', '1']
        try:
            with open(messages, 'wb') as file, signals_held():      # in a group of its own, which Ctrl-C does not reach
                self.server = subprocess.Popen(words, stdin=subprocess.DEVNULL, stdout=subprocess.DEVNULL, stderr=file,
                                               start_new_session=True)
        except OSError as fault:
            raise Fault(CONNECTION, f'{self.program} cannot be started: {cause(fault)}.') from None
        self.messages, self.begun, is_in_use = open(messages, encoding='utf-8', errors='replace'), '', False
        while self.server.poll() is None:
            is_in_use |= 'guarddb: InUse' in self.tell_messages()
            with contextlib.suppress(ConnectionRefusedError, FileNotFoundError):
                return guarddb.connect(path, wait=0.2, timeout=self.timeout)
        is_in_use |= 'guarddb: InUse' in self.tell_messages(at_end=True)
        hint = ': another program has it open. If that is a server, give its port or its socket' if is_in_use else ''
        raise Fault(CONNECTION, f'No server could be started over {self.name}{hint}.')

    def describe(self):
        """What `guarddb describe` tells of the file. The server that was started here has it locked, so a copy of it is described: between
        two answers that server writes nothing."""
        if not self.is_file:
            raise Fault(REFUSED, NOT_DESCRIBED)
        copy = os.path.join(self.folder, 'copy') if self.folder else None
        try:
            if copy:
                shutil.copyfile(self.name, copy)
            return guarddb_layout.described(copy or self.name, self.program)
        except (OSError, guarddb_layout.NotDescribed) as fault:
            raise Fault(REFUSED, f'{self.name} cannot be described: {cause(fault)}.') from None
        finally:
            if copy and os.path.exists(copy):
                os.remove(copy)

    def tell_messages(self, at_end=False):
        """Prints the server's new messages, except those of an ordinary start and end: whole lines, and at its end what is left of one."""
        *lines, self.begun = (self.begun + self.messages.read()).split('\n')
        if at_end:
            lines, self.begun = [*lines, self.begun], ''
        for line in lines:
            if line and not line.startswith(('guarddb: listening', 'guarddb: done')):
                warn(line)
        return lines

    def stop(self, at_once):
        """Waits for the end of the server started here, which comes after its connection, or kills it. Either way all that it
        acknowledged is in the file."""
        try:
            if self.server:
                self.server.wait(0 if at_once else END_OF_SERVER)
        except subprocess.TimeoutExpired:
            pass
        finally:
            with signals_held():
                self.clear_up()

    def clear_up(self):
        if self.server and self.server.poll() is None:
            os.killpg(self.server.pid, signal.SIGKILL)
            self.server.wait()
        if self.messages:
            self.tell_messages(at_end=True)
            self.messages.close()
        if self.folder:
            shutil.rmtree(self.folder, ignore_errors=True)
        self.server = self.folder = self.messages = None
