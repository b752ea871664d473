"""Where clients/shell.py writes the answers of statements, and in which form; and the texts of other programs that it runs in a
terminal, a pager and an editor."""
import contextlib
import os
import re
import shutil
import signal
import subprocess
import sys

from shell_place import OWN, REFUSED, Fault, cause, new_folder, say

PLAIN = re.compile(r'[^,"\r\n]+')


class Output:
    """Where answers go, and their form: aligned columns, or CSV. `null` is what is shown for a null, None for what the form has."""
    def __init__(self, form='aligned'):
        self.form, self.null, self.file, self.has_pager = form, None, None, True

    def put(self, text, is_paged=False):
        """Writes a text: to the file of `\\o`, through a pager where it is longer than the terminal, or to standard output."""
        if self.file:
            written(self.file, text + '\n')
        elif is_paged and self.has_pager and (pager := pager_for(text)):
            page(pager, text)
        else:
            say(text)

    def close(self):
        file, self.file = self.file, None
        if file:
            file.close()

    def send(self, name):
        """Sends what comes to a file, or with None to standard output again."""
        self.close()
        if name:
            self.file = made(name)

    @contextlib.contextmanager
    def sent(self, name):
        """Sends what comes meanwhile to a file; without a name it goes where it went."""
        before = self.file
        self.file = made(name) if name else before
        try:
            yield
        finally:
            if name:
                self.file.close()
            self.file = before

    def set(self, name, value):
        """Sets what `\\pset` names, and gives the line that says so."""
        if name == 'null':
            self.null = value or ''
        elif name == 'format' and value in ('aligned', 'csv'):
            self.form = value
        elif name == 'pager' and value in (None, 'on', 'off'):
            self.has_pager = not self.has_pager if value is None else value == 'on'
        else:
            raise Fault(REFUSED, r'\pset takes null TEXT, format aligned, format csv, pager on or pager off.')
        return self.settings()[name]

    def settings(self):
        """A line for each setting, by its name."""
        null = 'as the format has it' if self.null is None else f'as "{self.null}"'
        pager = 'on' if self.has_pager else 'off'
        return {'null': f'Null is shown {null}.', 'format': f'The format is {self.form}.', 'pager': f'The pager is {pager}.'}


def made(name):
    """A file of this name, opened to be written anew."""
    try:
        return open(os.path.expanduser(name), 'w', encoding='utf-8', errors='backslashreplace', newline='')
    except OSError as fault:
        raise Fault(OWN, f'{name} cannot be written: {cause(fault)}.') from None


def written(file, text):
    try:
        file.write(text)
        file.flush()
    except OSError as fault:
        with contextlib.suppress(OSError):      # of what is left in its buffer
            file.close()
        raise Fault(OWN, f'{file.name} cannot be written: {cause(fault)}.') from None


# ---- CSV

def csv_line(fields, null=''):
    """A line of CSV, by RFC 4180 but for its end: a null is empty, and a text that is empty, or could be taken for a null, has quotes."""
    def cell(value):
        is_plain = value is None or PLAIN.fullmatch(value) and value == value.strip() and value != null
        return (null if value is None else value) if is_plain else '"' + value.replace('"', '""') + '"'
    return ','.join(map(cell, fields))


def csv_lines(rows, names, null=''):
    """The lines of rows, and before them one of their names, or of numbers where they have none."""
    names = names or [str(number) for number in range(1, len(rows[0]) + 1 if rows else 1)]
    return [csv_line(names, None)] * bool(names) + [csv_line(row, null) for row in rows]


# ---- other programs in the terminal

@contextlib.contextmanager
def interrupts_passed_over():
    """Ctrl-C is for the program that has the terminal meanwhile."""
    before = signal.signal(signal.SIGINT, lambda *_: None)
    try:
        yield
    finally:
        signal.signal(signal.SIGINT, before)


def pager_for(text):
    """The pager that PAGER names, where both ends are a terminal and a text has more lines than it; else None."""
    is_long = text.count('\n') + 2 > shutil.get_terminal_size().lines
    return os.environ.get('PAGER') or None if is_long and sys.stdin.isatty() and sys.stdout.isatty() else None


def page(pager, text):
    """Shows a text by a pager; where the system's shell cannot run it, without one."""
    with interrupts_passed_over():
        process = subprocess.Popen(pager, shell=True, stdin=subprocess.PIPE, encoding='utf-8', errors='backslashreplace')
        with contextlib.suppress(BrokenPipeError):
            process.communicate(text + '\n')
    if process.wait() in (126, 127):
        say(text)


def edited(text, name=None):
    """The text of a file, or else this text, as an editor leaves it: that of VISUAL, of EDITOR, or vi."""
    editor, folder = os.environ.get('VISUAL') or os.environ.get('EDITOR') or 'vi', None if name else new_folder()
    path = os.path.expanduser(name) if name else os.path.join(folder, 'statement.sql')
    try:
        if not name:
            written(made(path), text)
        with interrupts_passed_over():
            status = subprocess.call(['sh', '-c', f'{editor} "$1"', 'sh', path])
        if status:
            raise Fault(REFUSED, f'{editor} ended with status {status}: nothing was run.')
        with open(path, encoding='utf-8') as file:
            return file.read()
    except (OSError, ValueError) as fault:
        raise Fault(OWN, f'{path} cannot be read: {cause(fault)}.') from None
    finally:
        if folder:
            shutil.rmtree(folder, ignore_errors=True)
