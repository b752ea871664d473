"""A client of Guarddb: sessions over a connection to `guarddb serve`, by the frames of docs/protocol.md.

    with guarddb.connect(5433) as connection, connection.open('ann') as ann:    # or connect('shop.sock')
        ann.ask('INSERT INTO t VALUES (1, NULL)')       # Done(tag='INSERT', count=1, warning=None)
        ann.ask('SELECT k, x FROM t')                   # [['1', None]], whose `columns` are ['k', 'x']
        ann.ask('SELECT k, x FROM t', int, int)         # [[1, None]]
        ann.describe('SELECT * FROM t')                 # [Column(name='k', type='int8'), ..], at a place of --at
        ann.ask('DELETE FROM t WHERE k = ? OR x = ?', values=(7, "it's"))   # each ? stands for a value
        ann.ask('DROP TABLE other')                     # raises Refused, whose code is '42P01'
        ann.ask('DROP other')                           # raises Refused, whose text shows where the syntax goes wrong
        ann.transaction(work)                           # work(ann) in a block, again where another session holds the writer lock

A connection carries one event at a time, of up to 256 sessions; threads that share it wait for each other, and each wants a session
of its own. The server takes the next connection when this one is closed, and answers it nothing before: then the timeout, 30 seconds,
ends the wait. Where a connection ends before an answer has come, which is a ConnectionError, or a TimeoutError, it is not known
whether the event was carried out.

At a place that asks for passwords `connect(5433, user='ann', password=..)` shows ann's, once for each connection; then it opens sessions for
ann alone.
"""
import collections
import contextlib
import errno
import itertools
import os
import random
import re
import socket
import stat
import struct
import threading
import time
import warnings

import guarddb_layout
import guarddb_scram
import guarddb_syntax
from guarddb_scram import BadServer

OPEN, STATEMENT, CLOSE, ANSWER = 1, 2, 3, 4     # the kinds of frames
FIRST, MESSAGE, LAST = 5, 6, 7                  # those of an exchange in which a password is shown
QUESTION = 8                                    # that of a question, which a place of --at takes
MAX_TEXT = 131067                               # bytes that one frame carries
MAX_NAME = 63                                   # bytes of a name
HEAD = struct.Struct('>IBI')                    # the length of what follows it, the kind, the session
ESCAPED = {'\\': '\\', 't': '\t', 'n': '\n', 'r': '\r'}
boolean = {'t': True, 'f': False}.__getitem__
QUOTED = r''''[^']*'?|"[^"]*"?|--[^\n\r]*'''     # a text, a quoted name or a comment, also an unfinished one
PLACEHOLDER = re.compile(rf'({QUOTED})|\?')
# Words that are no keywords here. Directly behind a table's name each is its alias, and what it means elsewhere is left out.
TAKEN = {
    'LEFT': 'there are no outer joins, and this one is an inner join', 'RIGHT': 'there are no outer joins, and this one is an inner join',
    'FULL': 'there are no outer joins, and this one is an inner join', 'NATURAL': 'there are no natural joins',
    'OFFSET': 'no rows are skipped', 'FETCH': 'LIMIT alone bounds the number of rows', 'HAVING': 'there are no groups',
    'TABLESAMPLE': 'all rows are read'}
ANY_TAKEN = re.compile(rf"\b({'|'.join(TAKEN)})\b", re.IGNORECASE)
TOKEN = re.compile(rf'({QUOTED})|[^\W\d][\w$]*|[^\s\w]|\d+')
SYNTAX, LOCKED, FAILED = '42601', '55P03', '25P02'
TIMEOUT = 30                                    # seconds that a connection waits for an answer
# Why no connection is made, by the number of the system's error.
CAUSES = {
    errno.ECONNREFUSED: 'connection refused (no server listens there)',
    errno.ENOENT: 'no such socket (a server makes it, and removes it at its end)',
    errno.EACCES: "no right to connect (the modes of the socket's file and of its folder say who may)",
    errno.EAGAIN: 'no room to wait (too many clients wait for this server)',
}
LEAST, GREATEST = -2 ** 63, 2 ** 63 - 1         # of BIGINT
ENDED = 'the server ended the connection'
NOT_KNOWN = 'it is not known whether the event was carried out'
LABEL = 0                                       # the number under which a password is shown
BAD_FRAME = '08P01'
NOT_ASKED = 'this place answers no such question, and ended the connection'
NOT_SHOWN = {'28000': 'password refused', '08P01': 'password refused, since this place asks for none'}
Done = collections.namedtuple('Done', 'tag count warning')      # such as ('INSERT', 3, None), ('GRANT', None, '01007')
Code = collections.namedtuple('Code', 'name meaning')
Column = collections.namedtuple('Column', 'name type')          # of an answer, such as ('k', 'int8')

# The codes of refusals and warnings. The names are those of the PostgreSQL manual, appendix A, and 08002's that of SQL:2016.
CODES = {code: Code(name, meaning) for code, name, meaning in (line.split(None, 2) for line in '''
08002 connection_name_in_use        the session is open already
08003 connection_does_not_exist     the session is not open
08P01 protocol_violation            bytes that are no frame; over a connection alone
0LP01 invalid_grant_operation       GRANT OPTION to PUBLIC, or a membership that would make a cycle
22003 numeric_value_out_of_range    a number outside BIGINT
22012 division_by_zero              a divisor of zero
23502 not_null_violation            a null in a column that is NOT NULL
23505 unique_violation              a primary key that another row has
25P02 in_failed_sql_transaction     the block has failed
28000 invalid_authorization_specification a login that is no role, or one without LOGIN; or the session's login role is gone
2B000 dependent_privilege_descriptors_still_exist a REVOKE without CASCADE of what other grants depend on
2BP01 dependent_objects_still_exist a role that is in use
42501 insufficient_privilege        a right is missing; the set role is gone or not allowed any more; or a new row that a policy refuses
42601 syntax_error                  syntax, a rule of form, or a wrong number of values
42622 name_too_long                 a name of over 63 bytes
42701 duplicate_column              a column that is named twice
42702 ambiguous_column              a column that two tables have
42703 undefined_column              no such column
42704 undefined_object              no such role or policy
42710 duplicate_object              the role or the policy exists already
42712 duplicate_alias               two tables of FROM under one name
42804 datatype_mismatch             a type that does not fit
42P01 undefined_table               no such table
42P07 duplicate_table               the table exists already
53100 disk_full                     no room on the device: nothing was changed; never in memory
53200 out_of_memory                 no memory for the event, which changed nothing and may be tried again
53300 too_many_connections          too many sessions
54000 program_limit_exceeded        a limit; or no number is left for one more commit
55P03 lock_not_available            another session holds the writer lock
58030 io_error                      the device failed, and the server has stopped: each further event is answered so; never in memory
01006 privilege_not_revoked         a REVOKE left out a privilege that the role may not grant
01007 privilege_not_granted         a GRANT left out a privilege that the role may not grant
25001 active_sql_transaction        BEGIN in a block
25P01 no_active_sql_transaction     COMMIT or ROLLBACK outside a block
'''.strip().split('\n'))}


class Refused(Exception):
    """The event was refused. `code` is a code of five characters, such as '42501', of which CODES has the name and the meaning.
    `statement` is the text that was sent, None where the event was no statement."""
    code = property(lambda self: self.args[0])
    statement = property(lambda self: self.args[1] if len(self.args) > 1 else None)

    @property
    def place(self):
        """Where a statement that was refused for its syntax goes wrong: an index, or None where that is not in its grammar."""
        return guarddb_syntax.error_place(self.statement) if self.code == SYNTAX and self.statement is not None else None

    def __str__(self):
        is_syntax = self.code == SYNTAX and self.statement is not None
        return '\n'.join(filter(None, [described(self.code), guarddb_syntax.pointed(self.statement) if is_syntax else '']))


class PasswordRefused(Refused):
    """The password was refused, 28000, or the place asks for none, 08P01. The connection is closed."""
    def __str__(self):
        return f'{self.code} {CODES[self.code].name}: {NOT_SHOWN[self.code]}'


class TakenForAlias(UserWarning):
    """A statement has a word that the server takes for an alias, where other databases have a keyword."""


def taken_for_aliases(statement):
    """What is to be said of each word of a SELECT that the server takes for the alias of a table: it stands directly behind the
    table's name, and means something else in other databases."""
    if not ANY_TAKEN.search(statement):
        return []
    tokens = [found[0] for found in TOKEN.finditer(statement) if not found[0].startswith('--')]
    words, told = [token.upper() for token in tokens], []
    for at in range(3, len(words)):
        is_table = words[at - 2] in ('FROM', 'JOIN', ',') and (tokens[at - 1][0] in '"_' or tokens[at - 1][0].isalpha())
        if words[0] == 'SELECT' and words[at] in TAKEN and is_table and words[at + 1:at + 2] != ['.']:
            told.append(f'{words[at]} is taken for an alias of the table {tokens[at - 1]}: {TAKEN[words[at]]}')
    return told


def described(code):
    """A code with its name and meaning, or alone if CODES does not have it."""
    return '{} {}: {}'.format(code, *CODES[code]) if code in CODES else code


def connect(place, wait=0, timeout=TIMEOUT, tables=None, user=None, password=None, names=False):
    """A connection to a server: at a port, an int, or at the path of a socket, a str. It is tried again for `wait` seconds. An answer
    that does not come within `timeout` seconds is a TimeoutError, and None is no limit. `tables`, as `guarddb_layout.tables` gives
    them, are for the columns of `SELECT *`. With `names` the server is asked for those that `tables` do not tell. Only a place of `--at`
    answers that: another one takes the question for a bad frame, and ends the connection.

    At a place that asks for passwords `user` is the role whose `password` is shown, before anything else is sent. A PasswordRefused
    where it is not that role's, and where the place asks for none; a BadServer where the server does not show that it keeps the
    password's verifier. A ValueError for what is no role's name or no password; a TypeError where one of both is not given."""
    check_login(user, password)
    connection = connected(place, wait, timeout, tables, names)
    if user is not None:
        connection.show(user, password)
    return connection


def check_login(user, password):
    """Raises the errors of `connect` for a user and a password, none of which has the password."""
    if (user is None) != (password is None):
        raise TypeError('a password is shown for a user: give both, or neither')
    if user is not None:
        quoted_name(user)
        guarddb_scram.checked(password)


def connected(place, wait, timeout, tables, names=False):
    """A connection over which nothing was sent."""
    is_port, end = isinstance(place, int), time.monotonic() + wait
    while True:
        stream = socket.socket(socket.AF_INET if is_port else socket.AF_UNIX)
        stream.settimeout(timeout)
        try:
            stream.connect(('127.0.0.1', place) if is_port else place)
            return Connection(stream, tables, names)
        except BaseException as fault:
            stream.close()
            if not isinstance(fault, (ConnectionRefusedError, FileNotFoundError, BlockingIOError)) or time.monotonic() >= end:
                raise with_cause(fault, place) from None
            time.sleep(0.02)


def with_cause(fault, place):
    """The fault of a connection that was not made, with the place and the cause in its message."""
    if isinstance(fault, socket.timeout):
        return socket.timeout(f'no connection to {place} in time: the server takes none')
    if getattr(fault, 'errno', None):
        is_other = isinstance(place, str) and os.path.exists(place) and not stat.S_ISSOCK(os.stat(place).st_mode)
        is_number = fault.errno == errno.ENOENT and place.isdigit()
        fault.strerror = 'no socket (guarddb serve makes one)' if is_other else 'no such socket; a port is an int, not a str' if is_number \
            else CAUSES.get(fault.errno, fault.strerror)
        fault.filename = place
    return fault


class ClosedAtItsEnd:
    """What `with` closes."""
    def __enter__(self):
        return self

    def __exit__(self, _, fault, __):
        try:
            self.close()
        except (OSError, Refused):
            if fault is None:       # else the fault is what there is to tell
                raise


class Connection(ClosedAtItsEnd):
    """A connection. Its end closes the sessions that are open, and rolls their blocks back."""
    def __init__(self, stream, tables=None, names=False):
        if stream.family == socket.AF_INET:
            stream.setsockopt(socket.IPPROTO_TCP, socket.TCP_NODELAY, 1)
        self.socket, self.input, self.tables, self.names = stream, stream.makefile('rb'), tables, names
        self.numbers = itertools.count(1)                   # of sessions
        self.turn, self.thread = threading.Lock(), None     # of the event that is under way, and whose it is
        self.end = None                                     # why the connection is closed

    def open(self, login):
        """A session for a role that may log in; the name is taken letter for letter."""
        number = next(self.numbers)
        read_answer(self.exchange(OPEN, number, login))
        return Session(self, number)

    def show(self, user, password):
        """Shows the password of a role, as `connect` does. Afterwards sessions are opened for this role alone. Whatever is raised, the
        connection is closed."""
        try:
            exchange = guarddb_scram.Exchange(password)
            challenge = self._message(FIRST, f'{user}\0{exchange.first()}')
            exchange.check(self._message(LAST, exchange.last(challenge)))
        except BaseException as fault:
            fault = no_answer(fault, self.socket.gettimeout(), 'the password was not shown')
            self.close(str(fault) or type(fault).__name__)
            raise fault from None

    def _message(self, kind, text):
        """Sends a message of an exchange, and gives the server's answer to it."""
        payload = text.encode()
        self.socket.sendall(HEAD.pack(5 + len(payload), kind, LABEL) + payload)
        length, kind, session = HEAD.unpack(self._read(9))
        if kind not in (MESSAGE, ANSWER) or session != LABEL or not 5 <= length <= 5 + MAX_TEXT:
            raise ConnectionError('this is no answer of a Guarddb server to a password')
        answer = self._read(length - 5).decode('ascii', 'replace')
        if kind == MESSAGE:
            return answer
        code = re.fullmatch(r'refused ([0-9A-Z]{5})\n', answer)
        if not code:
            raise ConnectionError('this is no answer of a Guarddb server to a password')
        raise (PasswordRefused if code[1] in NOT_SHOWN else Refused)(code[1])

    def exchange(self, kind, number, text=''):
        """Sends an event of the session of this number, and gives the text of its answer, once no other thread waits for one. A
        RuntimeError where this very thread does, as in the handler of a signal."""
        payload = text.encode()
        if len(payload) > MAX_TEXT:
            raise ValueError(f'{len(payload)} bytes are more than a frame carries')
        if self.thread == threading.get_ident():
            raise RuntimeError('this thread waits for an answer on this connection already')
        with self.turn:
            self._check_open()
            self.thread = threading.get_ident()
            try:
                self.socket.sendall(HEAD.pack(5 + len(payload), kind, number) + payload)
                return self._answer(number)
            except BaseException as fault:      # the frame that comes next may belong to this event
                self._check_open()              # another thread may have closed it
                fault = no_answer(fault, self.socket.gettimeout())
                self.close(str(fault) or type(fault).__name__)
                raise fault from None
            finally:
                self.thread = None

    def _check_open(self):
        if self.end:
            raise ConnectionError(f'the connection is closed: {self.end}') from None

    def _answer(self, number):
        pieces, lines, expected = [], 0, None
        while expected is None or lines < expected and len(piece) == MAX_TEXT:
            length, kind, session = HEAD.unpack(self._read(9))
            if kind != ANSWER or session not in (number, 0) or not 5 <= length <= 5 + MAX_TEXT:
                raise ConnectionError('this is no answer of a Guarddb server to the last event')
            piece = self._read(length - 5)
            if expected is None:    # an answer has one line, and a line more for each row
                rows = re.match(rb'rows ([0-9]+)\n', piece)
                expected = 1 + int(rows[1]) if rows else 1
            pieces.append(piece)
            lines += piece.count(b'\n')
        if lines != expected or not piece.endswith(b'\n'):
            raise ConnectionError('an answer has other lines than its first line says')
        return b''.join(pieces).decode()

    def _read(self, count):
        found = self.input.read(count)
        if len(found) < count:
            raise ConnectionError(ENDED)
        return found

    def close(self, why='by this program'):
        self.end = self.end or why
        with contextlib.suppress(OSError):      # else another thread that reads would hold the close up
            self.socket.shutdown(socket.SHUT_RDWR)
        self.input.close()
        self.socket.close()


def no_answer(fault, timeout, is_left=NOT_KNOWN):
    """The fault of an event that was not answered, with the cause in its message, and what that leaves."""
    if isinstance(fault, socket.timeout):
        return socket.timeout(f'no answer came within {timeout:g} seconds: {is_left}')
    if isinstance(fault, ConnectionError) and fault.errno:
        fault.strerror = ENDED
    return fault


class Rows(list):
    """The rows of an answer, each a list of fields."""
    def __init__(self, rows, statement=None, tables=None, told=None):
        super().__init__(rows)
        self.statement, self.tables, self.told = statement, tables, told

    @property
    def columns(self):
        """The names of the columns: those that the statement names, each other one by its text, and those of `*` by the tables of the
        connection, or as the server was asked for them. None where they are not known."""
        names = self.told or self.statement and guarddb_layout.columns(self.statement, self.tables)
        return None if names and self and len(names) != len(self[0]) else names


class Session(ClosedAtItsEnd):
    """A session, which is for one thread: what others do in it is in its block."""
    def __init__(self, connection, number):
        self.connection, self.number = connection, number

    def ask(self, statement, *types, values=None):
        """Runs a statement. Gives Rows, a list of rows, each a list of fields, or else a Done. A field is None for null, else a str.
        `types`, such as int and boolean, are for the first columns, in order: each gets the str of a field that is not null.
        `values`, if given, replace the placeholders of the statement, as in `filled`. Before it is sent a TakenForAlias warns of
        each word that the server takes for an alias."""
        text = statement if values is None else filled(statement, values)
        for told in taken_for_aliases(text):
            warnings.warn(told, TakenForAlias, stacklevel=2)
        told = self.names_of(text)
        answer = self.connection.exchange(STATEMENT, self.number, text)
        try:
            answer = read_answer(answer, types)
        except Refused as refused:
            raise Refused(refused.code, text) from None
        return Rows(answer, text, self.connection.tables, told) if isinstance(answer, list) else answer

    def describe(self, statement, values=None):
        """The columns of the rows that a statement would answer, a list of Column; none where it answers no rows. Their types are int8,
        text and bool. A Refused where it would be refused whatever the rows are. Nothing is done for it, and no block fails by it. Only
        a place of `--at` answers that: another one ends the connection, which is a ConnectionError."""
        text = statement if values is None else filled(statement, values)
        try:
            return [Column(*row) for row in read_answer(self.connection.exchange(QUESTION, self.number, text))]
        except Refused as refused:
            if refused.code != BAD_FRAME:
                raise Refused(refused.code, text) from None
        self.connection.close(NOT_ASKED)
        raise ConnectionError(NOT_ASKED)

    def names_of(self, text):
        """The names of the columns of a `SELECT *`, as the server tells them, where it is to be asked for them and `tables` do not tell
        them; else None."""
        if not self.connection.names or not guarddb_layout.is_star(text) or guarddb_layout.columns(text, self.connection.tables):
            return None
        try:
            return [column.name for column in self.describe(text)]
        except Refused:         # as the statement itself is
            return None

    def transaction(self, work, tries=10, pause=0.02):
        """Runs work(self) in a block, commits it, and gives what work gives. What work raises ends the block by a ROLLBACK. Where
        another session holds the writer lock, 55P03, work runs again from its beginning, up to `tries` times in all, after a pause: of
        at most `pause` seconds, which doubles each time. After a ConnectionError or a TimeoutError nothing is tried again, since then
        it is not known whether the block was committed. The first change of a block takes the lock: what work reads before it, another
        session may change meanwhile."""
        for left in reversed(range(tries)):
            self._begin()
            try:
                result = work(self)
                self._commit()
                return result
            except BaseException as fault:
                with contextlib.suppress(OSError, Refused):     # the fault is what there is to tell
                    self.ask('ROLLBACK')
                if not left or getattr(fault, 'code', None) != LOCKED or not isinstance(fault, Refused):
                    raise
            time.sleep(pause * random.random())
            pause *= 2
        raise ValueError('it is tried once at least')

    def _begin(self):
        if self.ask('BEGIN').warning:
            raise RuntimeError('the session is in a block already')

    def _commit(self):
        done = self.ask('COMMIT')
        if done.tag == 'ROLLBACK':
            raise Refused(FAILED, 'COMMIT')
        if done.warning:
            raise RuntimeError('the block was ended before it was committed')

    def close(self):
        """Closes the session; an open block of it is rolled back."""
        read_answer(self.connection.exchange(CLOSE, self.number))


def read_answer(text, types=()):
    first, *lines = text.split('\n')[:-1]
    words = first.split(' ')
    if words[0] == 'refused':
        raise Refused(words[1])
    if words[0] == 'rows':
        return read_rows([line.split('\t') for line in lines], tuple(types))
    warning = words.pop(1) if words[0] == 'warn' else None
    count = int(words.pop()) if words[-1].isdigit() else None
    return Done(' '.join(words[1:]), count, warning)


def read_rows(rows, types):
    """The rows with their fields converted. A ValueError names the column, counted from 1, that is not of its type."""
    try:
        return [[read_field(*pair) for pair in zip(row, types + (str,) * len(row))] for row in rows]
    except ValueError:
        for row in rows:
            for number, pair in enumerate(zip(row, types), 1):
                try:
                    read_field(*pair)
                except ValueError as fault:
                    raise ValueError(f'column {number}: {fault}') from None
        raise


def read_field(field, read):
    if '\\' not in field:
        return read(field)
    return None if field == r'\N' else read(re.sub(r'\\(.)', lambda found: ESCAPED[found[1]], field))


def filled(statement, values):
    """The statement with each placeholder replaced by the literal of a value, in order. A placeholder is a `?` outside texts,
    quoted names and comments; inside them a `?` is itself, and elsewhere the language has none. A ValueError if the numbers of
    placeholders and values differ, a TypeError for values without an order or a str of them, and the errors of `literal`."""
    if isinstance(values, (str, bytes, dict, set, frozenset)):
        raise TypeError(f'values come in a list or a tuple, not in a {type(values).__name__}')
    literals = [literal(value) for value in values]
    count = sum(not found[1] for found in PLACEHOLDER.finditer(statement))
    if count != len(literals):
        raise ValueError(f'{count} placeholders for {len(literals)} values')
    left = iter(literals)       # blanks around each, since 'a''b' is one text and x5 one word
    return PLACEHOLDER.sub(lambda found: found[1] or f' {next(left)} ', statement)


def literal(value):
    """None, a bool, an int or a str as an expression of SQL, whatever the str holds. A ValueError for an int outside BIGINT and
    for a str with a zero byte; a TypeError for a value of another type."""
    if isinstance(value, str):
        if '\0' in value:
            raise ValueError('a text with a zero byte has no literal')
        return "'" + value.replace("'", "''") + "'"
    if value is None or isinstance(value, bool):
        return {None: 'NULL', True: 'TRUE', False: 'FALSE'}[value]
    if not isinstance(value, int):
        raise TypeError(f'a {type(value).__name__} has no literal')
    if not LEAST <= value <= GREATEST:
        raise ValueError('a number outside BIGINT has no literal')
    return f'{int(value)}' if value >= 0 else f'({int(value)})'     # (-5), since 3 --5 has a comment


def quoted_name(name):
    """A name of a role, a table, a column or a policy in double quotes, letter for letter, as it stands in a statement. A
    ValueError for a str that is no name: it is empty, longer than 63 bytes, not UTF-8, or has a zero byte."""
    if not 1 <= len(name.encode()) <= MAX_NAME or '\0' in name:
        raise ValueError('a name has 1 to 63 bytes, and no zero byte')
    return '"' + name.replace('"', '""') + '"'
