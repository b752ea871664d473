"""What readline adds to clients/shell.py: a history of lines, and the completion of words."""
import contextlib
import glob
import os
import re
try:
    import readline
except ImportError:         # a Python without it
    readline = None

from shell_help import KEYWORDS, next_words
from shell_place import cause, warn

LINES_KEPT = 1000
OF_FILES = ('\\i', '\\o', '\\g', '\\e')
COPIED = re.compile(r'.*\s(?:to|from)\s+(\S*)', re.IGNORECASE)      # what stands before the file of \copy
OF_NAMES = ('\\d', '\\dt', '\\dp', '\\du', '\\z', '\\copy', '\\password')
DELIMITERS = ' \t\n();,=<>+-*/%.'


@contextlib.contextmanager
def line_editing(shell):
    """History and completion, if this Python has them."""
    if not readline:
        yield
        return
    path = os.environ.get('GUARDDB_HISTORY', os.path.expanduser('~/.guarddb_history'))
    readline.set_completer(Completer(shell).match)
    readline.set_completer_delims(DELIMITERS)
    readline.parse_and_bind('bind ^I rl_complete' if 'libedit' in (readline.__doc__ or '') else 'tab: complete')
    with contextlib.suppress(OSError):
        readline.read_history_file(path)
    count = readline.get_current_history_length()
    try:
        yield
    finally:
        keep_lines(path, readline.get_current_history_length() - count)


def keep_lines(path, count):
    """Adds the last lines to the file, since another shell may have added some meanwhile; an empty path is no file."""
    readline.set_history_length(LINES_KEPT)
    try:
        if path and count > 0 and hasattr(readline, 'append_history_file'):
            os.close(os.open(path, os.O_WRONLY | os.O_CREAT, 0o600))
            readline.append_history_file(count, path)
        elif path and count > 0:
            readline.write_history_file(path)
    except OSError as fault:
        warn(f'The lines typed here are not kept: {path}: {cause(fault)}.')


class Completer:
    """The words that may be meant by the beginning of one."""
    def __init__(self, shell):
        self.shell, self.matches = shell, []

    def match(self, text, number):
        """The match of this number for a text before the cursor; None if there are no more."""
        if number == 0:
            self.matches = self.words(text, readline.get_line_buffer()[:readline.get_begidx()])
        return self.matches[number] if number < len(self.matches) else None

    def words(self, text, before):
        """What begins with a text, behind what is before it on its line: a command or its argument, a keyword, or a name."""
        if text.startswith('\\'):
            return beginning(self.shell.commands(), text)
        command, _, typed = before[before.rfind('\\'):].partition(' ') if '\\' in before else ('', '', '')
        copied = COPIED.fullmatch(typed) if command == '\\copy' else None
        if copied or command in OF_FILES:
            return paths((copied[1] if copied else typed.lstrip()) + text, text)
        if command == '\\h':
            return beginning(in_case(next_words(typed.split()), text), text)
        arguments = {'\\x': ['on', 'off', 'auto'], '\\timing': ['on', 'off'], '\\close': self.shell.sessions,
                     '\\set': sorted(self.shell.variables), '\\unset': sorted(self.shell.variables),
                     '\\pset': ['null', 'format', 'pager', 'aligned', 'csv', 'on', 'off'],
                     '\\c': sorted({*self.shell.sessions, *self.shell.known_names()})}
        if command in arguments:
            return beginning(arguments[command], text)
        if command in OF_NAMES:
            return beginning(self.shell.known_names(), text)
        return beginning(in_case(KEYWORDS, text) + self.shell.known_names(), text) if text else []


def beginning(words, text):
    return [word for word in words if word.startswith(text)]


def in_case(keywords, text):
    """Keywords in the case of a text."""
    return [word.lower() for word in keywords] if text.islower() else [*keywords]


def paths(typed, text):
    """The paths that begin as one that is typed, each without all that is before `text`, the last part of what is typed."""
    begin = os.path.expanduser(typed)
    found = sorted(glob.glob(glob.escape(begin) + '*'))
    return [path[len(begin) - len(text):] + '/' * os.path.isdir(path) for path in found]
