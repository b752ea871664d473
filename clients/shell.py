#!/usr/bin/env python3
"""A shell for Guarddb: runs SQL in sessions of a server, and shows the answers.

    python3 clients/shell.py 5433 ann                               # the server at a port, with a session for the role ann
    python3 clients/shell.py shop.sock ann                          # the server at a socket
    python3 clients/shell.py shop.db root                           # a file, whose server it starts, and stops at the end
    python3 clients/shell.py shop.db root -c 'SELECT * FROM t'      # runs this, and ends
    python3 clients/shell.py shop.db root -f orders.sql             # runs a script, and ends
    python3 clients/shell.py shop.db root < orders.sql              # runs it, too

With -c or -f, or if standard input or output is not a terminal, it runs what it is given, up to the first refusal.
docs/clients.md describes its commands, its output and its exit statuses.
"""
import argparse
import contextlib
import os
import re
import shutil
import signal
import socket
import sys
import threading
import time

import guarddb
from guarddb_layout import columns, columns_by_table, program
from guarddb_syntax import pointed
from shell_copy import copy
from shell_display import command_at, first_word, heads, in_columns, in_lines, is_blank, names_in, open_quote, shown, split, width
from shell_help import HELP, KEYWORDS, explained, forms
from shell_hints import told, warn_of_aliases
from shell_listing import list_privileges, list_roles, list_table, list_tables, names_of
from shell_output import Output, csv_lines, edited
from shell_password import Passwords, change as change_password
from shell_place import (CONNECTION, NO_READER, OWN, REFUSED, End, Fault, Place, cause, end_by, open_standard_streams, say,
                         signals_held, warn)
from shell_typing import line_editing, readline
from shell_variables import Variables

PATIENCE = 3                                    # seconds after which it is said that an open is not answered yet
NO_LOGIN = '28000'
KEEP_BLOCK = ('53100', '53200', '58030')        # refusals that leave a block as it was
WORD = re.compile(r'''(["'])((?:(?!\1).|\1\1)*)\1|\S+''', re.DOTALL)
LIST_COMMAND = re.compile(r'\\(d\w*\+?|l\+?)')
DEFINES = ('CREATE', 'DROP', 'ALTER', 'GRANT', 'REVOKE')        # what a statement begins with that changes what a description tells
NOTHING_DESCRIBED = {part: [] for part in ('roles', 'memberships', 'tables', 'columns', 'privileges', 'policies')}
WITHOUT_BACKSLASH = {'quit': r'\q', 'exit': r'\q', 'help': r'\?'}
MARK = b'\xef\xbb\xbf'                           # with which some editors begin a file of UTF-8
NO_CATALOGUE = r'A server has one database, and no schemas, views or functions: \dt lists its tables, \du its roles, \dp the privileges.'
NOT_COMMITTED = 'What the open block defines is not told.'
NO_TERMINAL = r'\e edits in a terminal alone.'
NO_SESSION = r'No session is open: \c ROLE opens one.'
NOTHING_TYPED = 'Nothing is typed so far.'
NOT_RUN = '\nThe rest of the line was not run.'
WITH_A_DOT = r'Commands begin with \; \? lists them.'
ONE_ROLE = 'Over this connection the password of {} was shown, and sessions are for that role alone.'
GOES_ON = 'This line belongs to the statement typed so far. Ctrl-C discards that, Ctrl-D leaves.'


class Opened:
    """A session that is open. `block` is empty outside a block, '*' in one, and '!' in one that has failed; `defines` says whether it
    has changed definitions in its block."""
    def __init__(self, session, name, role):
        self.session, self.name, self.role, self.block, self.defines = session, name, role, '', False

    def follow(self, statement, answer):
        """Follows the block by an answer: a Done, rows, or the code of a refusal."""
        tag = getattr(answer, 'tag', None)
        if tag in ('BEGIN', 'COMMIT', 'ROLLBACK'):
            self.block = '*' if tag == 'BEGIN' else ''
            self.defines = self.defines and tag == 'BEGIN'      # a BEGIN in a block does nothing
        elif tag:
            self.defines = self.defines or self.block != '' and tag.startswith(DEFINES)
        elif isinstance(answer, str) and self.block and answer not in KEEP_BLOCK:
            has_no_number = answer == '54000' and first_word(statement) == 'COMMIT'
            self.block = self.block if has_no_number else '!'


class Shell:
    """Sessions over one connection, and the text that is typed."""
    def __init__(self, place, is_interactive, is_raw, form='aligned'):
        self.place, self.is_interactive, self.is_raw = place, is_interactive, is_raw
        self.connection = self.current = self.description = None    # what is told of the file, None where that may have changed
        self.sessions, self.names, self.output, self.variables = {}, set(), Output(form), Variables()
        self.text = self.quote = self.last = ''     # the text typed so far, the quote that is open in it, and the last statement
        self.expanded, self.is_timed = 'auto', False
        self.told = None        # the names of the columns of the last answer, where the server was asked for them

    # -- sessions

    def go(self, name, role=None):
        """Switches to the session of this name, opening it if there is none."""
        opened = self.sessions.get(name)
        if opened and role not in (None, opened.role):
            raise Fault(REFUSED, f'The session {name} belongs to the role {opened.role}.')
        if not opened:
            opened = self.sessions[name] = Opened(self.opened(role or name), name, role or name)
            self.names.add(role or name)
        self.current = opened

    def opened(self, role):
        """A session for a role. Where the place asks for a password, and none is given, it is typed."""
        if self.place.user not in (None, role) and not self.sessions:
            self.leave()
        is_first = self.connection is None
        try:
            return self.opened_once(role)
        except Fault as fault:
            if self.place.user not in (None, role):
                raise Fault(fault.status, f'{fault.text}\n{ONE_ROLE.format(self.place.user)}') from None
            if not is_first or not self.asks_for_password(fault):
                raise
        self.leave()
        self.place.passwords.ask(self.place.name, role)
        return self.opened_once(role)

    def opened_once(self, role):
        self.connection = self.connection or self.place.connect(role)
        with patience():
            return self.answered(self.connection.open, role)

    def asks_for_password(self, fault):
        """Whether the place asks for passwords, by the fault of an open that was the first event: then the connection has ended. Else
        a close is answered."""
        if self.place.is_file or self.place.user or getattr(fault.__cause__, 'code', None) != NO_LOGIN:
            return False
        try:
            self.connection.exchange(guarddb.CLOSE, 0)
        except OSError as fault:
            return not isinstance(fault, socket.timeout)
        return False

    def close(self, name=None):
        opened = self.sessions.get(name) if name else self.current
        if not opened:
            raise Fault(REFUSED, f'There is no session {name}.' if name else NO_SESSION)
        del self.sessions[opened.name]
        self.current = None if opened is self.current else self.current
        self.answered(opened.session.close)
        tell_block(opened)

    def answered(self, call, *words):
        """The result of a call of the client. If the connection ends, its sessions are gone."""
        try:
            return call(*words)
        except guarddb.Refused as refusal:
            raise Fault(REFUSED, explained(refusal.code)) from refusal
        except KeyboardInterrupt:
            fault = self.lost('Given up', at_once=True)
            raise (fault if self.is_interactive else KeyboardInterrupt) from None
        except OSError as fault:
            is_gone = fault.errno is not None or 'ended' in str(fault)
            raise self.lost('The server went away' if is_gone else why(fault), at_once=not is_gone) from None
        except UnicodeDecodeError as fault:
            raise self.lost(why(fault), at_once=True) from None
        except UnicodeEncodeError:
            raise Fault(REFUSED, 'The text is not UTF-8.') from None
        except ValueError as fault:
            raise Fault(REFUSED, f'Not sent: {fault}.') from None

    def lost(self, reason, at_once):
        self.leave(at_once)
        again = r' \c ROLE connects again.' if self.is_interactive else ''
        return Fault(CONNECTION, f'{reason}: the connection is closed, and it is not known whether this was carried out.{again}')

    def leave(self, at_once=False):
        """Ends the connection, and with it the sessions and the server that was started here."""
        is_connected = self.connection is not None
        if is_connected:
            self.connection.close()
        self.connection = self.current = None
        self.sessions.clear()
        self.abandon()
        self.description = None
        self.place.stop(at_once or not is_connected)

    # -- lines

    def prompt(self):
        name, block = (shown(self.current.name), self.current.block) if self.current else ('', '')
        return f"{name}{self.quote or ('-' if self.text else '=')}{block}> "

    def take(self, line, is_typed=False):
        """Takes a line, with its newline: runs the statements that end in it, keeps what is behind them, and runs the command at
        its end."""
        if line.startswith('.') and self.text == '':
            raise Fault(REFUSED, WITH_A_DOT)        # as no statement begins
        line = self.quote + line        # only a quote goes on over the end of a line, so the text before it is not cut again
        begin = command_at(line)
        before = self.variables.filled(line[:begin])
        first, *others = split(before)
        *statements, rest = self.text + first[len(self.quote):], *others
        is_more = self.text != '' and not statements
        self.abandon()
        self.run_each(statements, rest + line[begin:], is_typed)
        if len(rest) > guarddb.MAX_TEXT:
            raise Fault(REFUSED, 'The statement does not end: it is already longer than a frame can carry.')
        if is_more or not is_blank(rest):
            self.text, self.quote = rest, open_quote(before)
        if begin < len(line):
            self.text += '\n' * (self.text[-1:] not in ('', '\n'))     # what comes next is another word
            self.command(line[begin:])

    def take_typed(self, line):
        """Takes a line of a terminal."""
        word = WITHOUT_BACKSLASH.get(line.strip().rstrip('; ').lower())
        if word and self.text:
            warn(GOES_ON)
        self.take(line if self.text or not word else word, is_typed=True)

    def run_each(self, statements, behind, is_typed):
        """Runs statements. If one that was typed is refused, and others or something else are behind it, it is said that they are
        not run."""
        for number, statement in enumerate(statements, 1):
            try:
                self.run(statement)
            except Fault as fault:
                is_left = is_typed and not is_blank('\n'.join([*statements[number:], behind]))
                raise type(fault)(fault.status, fault.text + NOT_RUN * is_left) from None

    def run_text(self):
        """Runs the text typed so far, which no `;` has ended."""
        statement = self.text
        self.abandon()
        self.run(statement)

    def run(self, statement):
        if is_blank(statement):
            return
        begin, self.last = time.monotonic(), statement
        answer, text = self.ask(statement)
        spent = time.monotonic() - begin
        self.names.update(name for name in names_in(statement) if name.upper() not in KEYWORDS)
        self.show(answer, text, statement)
        if self.is_timed:
            (warn if self.is_raw or self.output.form == 'csv' else say)(f'Time: {1000 * spent:.3f} ms')

    def ask(self, statement):
        """The answer of a statement, and its text."""
        opened = self.current
        if not opened:
            raise Fault(REFUSED, NO_SESSION)
        self.told = self.answered(opened.session.names_of, statement)
        text = self.answered(opened.session.connection.exchange, guarddb.STATEMENT, opened.session.number, statement)
        try:
            answer = self.answered(guarddb.read_answer, text)
        except Fault as fault:
            code = fault.__cause__.code
            opened.follow(statement, code)
            if code == guarddb.SYNTAX:
                text = explained(code, pointed(statement, shown, width)) + told(statement)
                raise Fault(fault.status, text) from fault.__cause__
            warn_of_aliases(statement)
            raise
        opened.follow(statement, answer)
        warn_of_aliases(statement)
        if getattr(answer, 'tag', '').startswith((*DEFINES, 'COMMIT')):
            self.description = None
        return answer, text

    def show(self, answer, text, statement):
        if isinstance(answer, guarddb.Done):
            if answer.warning:
                warn(f'WARNING:  {guarddb.described(answer.warning)}')
            if not self.is_raw and self.output.form != 'csv':
                self.output.put(' '.join(str(part) for part in answer[:2] if part is not None))
        elif self.is_raw:
            if answer:
                self.output.put(text.partition('\n')[2][:-1])
        elif self.output.form == 'csv':
            lines = csv_lines(answer, self.fitting(answer, self.told or columns(statement, self.tables())), self.output.null or '')
            if lines:
                self.output.put('\n'.join(lines))
        else:
            lines = self.laid_out(answer, self.fitting(answer, self.heads(statement)))
            self.output.put('\n'.join([*lines, f"({len(answer)} row{'' if len(answer) == 1 else 's'})"]), is_paged=True)

    def fitting(self, rows, names):
        """The names, where there are as many as the rows have columns."""
        return None if rows and names and len(names) != len(rows[0]) else names

    def heads(self, statement):
        """The heads of the columns of a SELECT: those of `*` stand in the description of the file, or the server has told them."""
        found = heads(statement)
        return found or [*map(shown, self.told or columns(statement, self.tables()) or [])] or None

    def laid_out(self, rows, names):
        null = 'NULL' if self.output.null is None else self.output.null
        lines = in_columns(rows, names, null)
        is_wide = not self.output.file and sys.stdout.isatty() and max(map(width, lines), default=0) > shutil.get_terminal_size().columns
        return in_lines(rows, names, null) if self.expanded == 'on' or self.expanded == 'auto' and is_wide else lines

    # -- what is told of the file

    def described(self):
        """What `guarddb describe` tells of the file, asked anew after each change of it."""
        if self.description is None:
            self.description = self.place.describe()
        return self.description

    def description_or_none(self):
        """The same, and nothing where it cannot be told, or the open block has changed definitions."""
        try:
            return NOTHING_DESCRIBED if self.current and self.current.defines else self.described()
        except Fault:
            return NOTHING_DESCRIBED

    def tables(self):
        """The columns of each table that is known."""
        return columns_by_table(self.description_or_none())

    def known_names(self):
        """The names of roles, tables and columns that were used here, or are in the file."""
        return sorted(self.names | names_of(self.description_or_none()))

    def list(self, listed, *words):
        lines = listed(self.described(), *words)
        is_told = any(opened.defines for opened in self.sessions.values())
        self.output.put('\n'.join([*lines, *[NOT_COMMITTED] * is_told]), is_paged=True)

    # -- commands

    def command(self, line):
        name, *words = self.words(line.strip().rstrip(';'))
        name = name[:-1] if name in ('\\d+', '\\dt+', '\\du+', '\\dp+') else name
        least, most, call = self.commands().get(name, (0, 0, None))
        if name == '\\copy':        # whose words are cut otherwise
            return say(copy(self, line.strip()))
        if name == '\\echo':       # which prints a `;` at its end, too
            call, words = self.echo, self.words(line.strip())[1:]
        if call is None:
            is_list = LIST_COMMAND.fullmatch(name)
            raise Fault(REFUSED, NO_CATALOGUE if is_list else rf'Invalid command {name}; \? lists the commands.')
        if not least <= len(words) <= most:
            raise Fault(REFUSED, rf'Wrong arguments for {name}; \? shows them.')
        call(*words)

    def words(self, line):
        """The words of a command, with the values of variables where they stand outside of quotes."""
        return [self.variables.filled(found[0]) if found[1] is None else found[2].replace(found[1] * 2, found[1]) for found in WORD.finditer(line)]

    def commands(self):
        """Each command by its name: how many arguments it takes, at least and at most, and what it does."""
        return {
            '\\c': (1, 2, self.change), '\\close': (0, 1, self.close), '\\conninfo': (0, 0, self.tell_sessions),
            '\\d': (0, 1, lambda *words: self.list(list_table if words else list_tables, *words)),
            '\\dt': (0, 1, lambda *words: self.list(list_tables, *words)), '\\du': (0, 1, lambda *words: self.list(list_roles, *words)),
            '\\dp': (0, 1, lambda *words: self.list(list_privileges, *words)), '\\copy': (1, 99, None), '\\e': (0, 1, self.edit),
            '\\o': (0, 1, lambda name=None: self.output.send(name)), '\\pset': (0, 2, self.set_output),
            '\\password': (0, 2, lambda *words: change_password(self, *words)),
            '\\z': (0, 1, lambda *words: self.list(list_privileges, *words)),
            '\\g': (0, 1, self.run_sent), '\\gx': (0, 0, self.run_expanded), '\\p': (0, 0, self.tell_text),
            '\\echo': (0, 999, self.echo), '\\set': (0, 999, self.set_variable), '\\unset': (1, 1, self.unset_variable),
            '\\watch': (0, 1, self.watch), '\\r': (0, 0, self.abandon), '\\h': (0, 9, lambda *words: say(forms(words))), '\\i': (1, 1, self.run_file),
            '\\timing': (0, 1, self.time), '\\x': (0, 1, self.expand), '\\?': (0, 0, lambda: say(HELP)),
            '\\q': (0, 0, self.quit)}

    def change(self, name, role=None):
        if name == '-' and role:        # as in psql
            name, role = role, None
        self.go(name, role)

    def tell_sessions(self):
        lines = [f'{"*" if opened is self.current else " "} {opened.name}, for the role {opened.role}'
                 + {'': '', '*': ', in a block', '!': ', in a block that has failed'}[opened.block]
                 for opened in self.sessions.values()]
        say('\n'.join([f'The server is {"over" if self.place.is_file else "at"} {self.place.name}.', *lines]))

    def abandon(self):
        self.text = self.quote = ''

    def tell_text(self):
        say(self.text.rstrip() or NOTHING_TYPED)

    def run_typed(self):
        if not self.text:
            raise Fault(REFUSED, NOTHING_TYPED)
        self.run_text()

    def run_sent(self, name=None):
        """Runs the text typed so far, and sends its answer, this one alone, to a file."""
        with self.output.sent(name):
            self.run_typed()

    def watch(self, word='2'):
        """Runs the text typed so far, or else the last statement, again and again, so many seconds apart, until Ctrl-C or a refusal."""
        pause, statement = pause_of(word), self.text or self.last
        if not statement:
            raise Fault(REFUSED, NOTHING_TYPED)
        self.abandon()
        has_pager, self.output.has_pager = self.output.has_pager, False
        try:
            while True:
                if not self.is_raw and self.output.form != 'csv':
                    self.output.put(f'{time.strftime("%a %b %e %H:%M:%S %Y")} (every {word}s)\n')
                self.run(statement)
                if not self.waits(pause):
                    return
        finally:
            self.output.has_pager = has_pager

    def waits(self, pause):
        """Waits so many seconds; False where Ctrl-C in a terminal ends that."""
        try:
            time.sleep(pause)
        except KeyboardInterrupt:
            if not self.is_interactive:
                raise
            say('')
            return False
        return True

    def echo(self, *words):
        """Prints the words."""
        is_open = words[:1] == ('-n',)
        say(' '.join(words[is_open:]), end='' if is_open else '\n')

    def set_variable(self, name=None, *words):
        if name is not None:
            return self.variables.put(name, *words)
        say('\n'.join(self.variables.lines() or ['No variable is set.']))

    def unset_variable(self, name):
        self.variables.pop(name, None)

    def edit(self, name=None):
        """Takes what an editor leaves of the text typed so far, of the last statement, or of a file, as if it were typed."""
        if not self.is_interactive:
            raise Fault(REFUSED, NO_TERMINAL)
        before = '' if name else self.text or self.last
        text = edited(before, name).rstrip()
        if text == before.rstrip():
            return
        self.abandon()
        say(shown_lines(text))
        for line in text.split('\n'):
            self.take(line + '\n', is_typed=True)

    def set_output(self, name=None, value=None):
        say(self.output.set(name, value) if name else '\n'.join(self.output.settings().values()))

    def run_expanded(self):
        """Runs the text typed so far, and shows the columns of its answer, of this one alone, on lines of their own."""
        expanded, self.expanded = self.expanded, 'on'
        try:
            self.run_typed()
        finally:
            self.expanded = expanded

    def time(self, word=None):
        if word not in (None, 'on', 'off'):
            raise Fault(REFUSED, r'\timing takes on or off.')
        self.is_timed = not self.is_timed if word is None else word == 'on'
        say(f'Timing is {"on" if self.is_timed else "off"}.')

    def expand(self, word=None):
        if word not in (None, 'on', 'off', 'auto'):
            raise Fault(REFUSED, r'\x takes on, off or auto.')
        self.expanded = word or ('off' if self.expanded == 'on' else 'on')
        say(f'Expanded display is {self.expanded}.')

    def run_file(self, name):
        text = self.text
        self.abandon()
        try:
            with open(os.path.expanduser(name), 'rb') as file:
                run_lines(self, file, f'{name}: line ')
        except (OSError, RecursionError) as fault:
            raise Fault(OWN, f'{name} cannot be read: {cause(fault)}.') from None
        except End as end:      # \q in a file ends the file alone
            if end.status:
                raise
        finally:
            self.text = text

    def quit(self):
        raise End(0, '')

    def tell_blocks(self):
        for opened in self.sessions.values():
            tell_block(opened)


def pause_of(word):
    """The seconds that a word of \\watch names."""
    try:
        return seconds(word)
    except ValueError:
        raise Fault(REFUSED, rf'\watch takes a number of seconds, not {word}.') from None


def shown_lines(text):
    return '\n'.join(map(shown, text.split('\n')))


def tell_block(opened):
    """Says of a session that ends whether a block is lost."""
    if opened.block:
        warn(f'WARNING:  the open block of {shown(opened.name)} is rolled back')


def why(fault):
    """Why a connection was given up whose server is still there."""
    text = str(fault)
    return 'No answer came in time' if isinstance(fault, socket.timeout) else text[:1].upper() + text[1:]


@contextlib.contextmanager
def patience():
    """Says so if there is no answer for a while."""
    text = 'No answer yet: a server takes one connection at a time, and another may be open. Ctrl-C gives up.'
    timer = threading.Timer(PATIENCE, warn, [text])
    timer.daemon = True
    timer.start()
    try:
        yield
    finally:
        timer.cancel()


# ---- from the first word to the last

def run_lines(shell, lines, where):
    """Runs lines of bytes up to the first fault, to which it adds the line's number; their end ends the last statement."""
    number = 0
    try:
        for number, line in enumerate(lines, 1):
            shell.take((line.removeprefix(MARK) if number == 1 else line).decode())
        shell.run_text()
    except UnicodeDecodeError:
        raise Fault(OWN, f'{where}{number}: The text is not UTF-8.') from None
    except Fault as fault:
        shell.abandon()
        raise type(fault)(fault.status, fault.text and f'{where}{number}: {fault.text}') from None


def run_given_text(shell, text):
    """Runs what follows -c."""
    for line in text.split('\n'):
        shell.take(line + '\n')
    shell.run_text()


def run_input(shell):
    run_lines(shell, sys.stdin.buffer, 'line ')


def run_given_file(shell, name):
    """Runs what follows -f: a file, or standard input."""
    if name == '-':
        run_input(shell)
    else:
        shell.run_file(name)


def read_line(shell):
    try:
        return input(shell.prompt())
    except KeyboardInterrupt:
        shell.abandon()
        say('^C' if readline else '')       # readline does not show it
        return ''


def take_lines(shell, lines):
    """Takes a line that was typed, or those of a paste. If one is refused, the next ones are taken as if they were typed."""
    while lines:
        try:
            shell.take_typed(lines.pop(0) + '\n')
        except End:
            raise
        except Fault as fault:
            warn(fault.text)
            if fault.status == CONNECTION and any(lines):
                return warn('The lines behind it were not run.')


def converse(shell):
    """Takes lines from a terminal until it ends."""
    say(rf'Guarddb, {shell.place.name}. \? shows help, \q leaves.' + f'\n{NO_SESSION}' * (shell.current is None))
    while True:
        try:
            take_lines(shell, read_line(shell).split('\n'))
        except KeyboardInterrupt:
            shell.abandon()
            say('')
        except EOFError:
            return say('')
        except UnicodeDecodeError:
            warn('The text is not UTF-8.')


class Words(argparse.ArgumentParser):
    def error(self, message):
        self.print_usage(sys.stderr)
        self.exit(OWN, f'{self.prog}: {message}\n')


def read_words():
    words = Words(prog='shell.py', description=__doc__, formatter_class=argparse.RawDescriptionHelpFormatter)
    words.add_argument('place', metavar='PLACE', help='a port of 127.0.0.1, the path of a socket, or a file')
    words.add_argument('role', metavar='ROLE', nargs='?', help='the role that a first session is opened for')
    runs = {'dest': 'runs', 'action': 'append', 'default': []}
    words.add_argument('-c', metavar='TEXT', type=lambda text: (run_given_text, text), help='runs TEXT and ends', **runs)
    words.add_argument('-f', metavar='FILE', type=lambda name: (run_given_file, name),
                       help='runs FILE and ends; - is standard input', **runs)
    forms = words.add_mutually_exclusive_group()
    forms.add_argument('-A', action='store_true', help='prints rows alone, as the server writes them, with tabs')
    forms.add_argument('--csv', dest='form', action='store_const', const='csv', default='aligned', help='prints rows alone, as CSV')
    words.add_argument('--names', action='store_true', help="asks for the names of the columns of SELECT *, at a server's place of --at")
    words.add_argument('--timeout', metavar='SECONDS', type=seconds, help='how long to wait for an answer; without it, for ever')
    words.add_argument('--program', metavar='PATH', default=program(), help='the program that serves a file')
    return words.parse_intermixed_args()        # ROLE may stand behind options


def seconds(word):
    if not 0 < float(word) <= 1e6:
        raise ValueError
    return float(word)


def check_streams(given, closed):
    is_read = not given.runs or (run_given_file, '-') in given.runs
    if 'output' in closed or 'input' in closed and is_read:
        raise End(OWN, f"Standard {'output' if 'output' in closed else 'input'} is closed.")


def run_given(shell, given):
    """Runs what is given, or what is typed."""
    if given.role:
        shell.go(given.role)
    for run, word in given.runs:
        run(shell, word)
    if shell.is_interactive:
        with line_editing(shell):
            converse(shell)
    elif not given.runs:
        run_input(shell)


def run_shell(given):
    is_interactive = not given.runs and sys.stdin.isatty() and sys.stdout.isatty()
    place = Place(given.place, given.program, given.timeout, Passwords(os.environ), given.names)
    shell = Shell(place, is_interactive, given.A, given.form)
    try:
        run_given(shell, given)
        shell.tell_blocks()
    except End as end:
        if end.status:
            raise
        shell.tell_blocks()
    finally:
        shell.output.close()
        shell.leave()


def main():
    for number in (signal.SIGTERM, signal.SIGHUP):
        if signal.getsignal(number) != signal.SIG_IGN:
            signal.signal(number, lambda number, _: sys.exit(128 + number))
    closed = open_standard_streams()
    try:
        with signals_held():
            given = read_words()
        check_streams(given, closed)
        run_shell(given)
    except Fault as fault:
        if fault.text:
            warn(fault.text)
        if fault.status == NO_READER:
            end_by(signal.SIGPIPE)
        return fault.status
    except KeyboardInterrupt:
        end_by(signal.SIGINT)
    return 0


if __name__ == '__main__':
    sys.exit(main())
