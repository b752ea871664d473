"""The passwords of clients/shell.py: where they come from, and how a role gets another one."""
import os
import re
import stat

import guarddb
import guarddb_scram
from shell_place import OWN, REFUSED, Fault, cause, say

NOT_GIVEN = '{} asks for the password of {}: GUARDDB_PASSWORD has it, or a line of the file that GUARDDB_PASSFILE names.'
NO_TABLE = r'\password ROLE TABLE names the table of passwords, and so does \set PASSWORDS TABLE.'
FIELD = re.compile(r'((?:\\.|[^:\\]|\\$)*)(?::|$)')


class Passwords:
    """The passwords that are given to a shell. That of GUARDDB_PASSWORD is taken out of the environment, so that no program that is
    started here has it."""
    def __init__(self, environment):
        self._given = environment.pop('GUARDDB_PASSWORD', None) or None
        self.path = environment.get('GUARDDB_PASSFILE')
        self._known = {}        # those that were typed here, by their roles

    def find(self, place, role):
        """The password of a role at a place; None where none is given."""
        return self._known.get(role) or self._given or (self.path and in_file(self.path, place, role))

    def ask(self, place, role):
        """Asks for it in the terminal."""
        try:
            self._known[role] = guarddb_scram.asked(f'Password of {role} at {place}: ')
        except EOFError:
            raise Fault(REFUSED, NOT_GIVEN.format(place, role)) from None
        except ValueError as fault:
            raise Fault(REFUSED, f'No password was shown: {fault}.') from None

    def forget(self, role):
        """Forgets what was typed for a role, which was wrong."""
        self._known.pop(role, None)

    def change(self, role, password):
        """Takes another one for a role, which it has from now on."""
        self._known[role] = password


# ---- files of passwords

def in_file(path, place, role):
    """The password of the first line of a file that is for a place and a role; None where there is none. A Fault where others than its
    owner may read the file."""
    try:
        with open(path, encoding='utf-8', errors='surrogateescape') as file:
            check_mode(os.fstat(file.fileno()), path)
            lines = file.read().split('\n')
    except OSError as fault:
        raise Fault(OWN, f'The file of passwords {path} cannot be read: {cause(fault)}.') from None
    return next((line[2] for line in map(fields, lines) if line and is_for(line, place, role)), None)


def check_mode(status, path):
    if not stat.S_ISREG(status.st_mode):
        raise Fault(OWN, f'The file of passwords {path} is no file.')
    if status.st_mode & 0o077:
        raise Fault(OWN, f'The file of passwords {path} has mode {stat.S_IMODE(status.st_mode):04o}, so that others may use it: chmod 0600 {path}')


def fields(line):
    """The three fields of a line, without the backslashes before their signs; None of what has none."""
    found = [re.sub(r'\\(.)', r'\1', field) for field in FIELD.findall(line.rstrip('\r'))[:3]]
    return found if len(found) == 3 and found[2] and not line.startswith('#') else None


def is_for(line, place, role):
    """Whether a line is for a place and a role, each of which may be a `*`. The path of a socket may be written from the root."""
    places = ('*', place) if place.isdigit() else ('*', place, os.path.abspath(place))
    return line[0] in places and line[1] in ('*', role)


# ---- \password

def new_password(role):
    """A new password of a role, typed twice into the terminal."""
    try:
        return guarddb_scram.asked_twice(f' of {role}')
    except EOFError:
        raise Fault(REFUSED, r'Nothing was changed: \password asks in a terminal.') from None
    except ValueError as fault:
        raise Fault(REFUSED, f'Nothing was changed: {fault}.') from None


def update(table, role, password):
    """The statement that has a table of passwords keep the verifier of a password."""
    try:
        table, role = guarddb.quoted_name(table), guarddb.literal(role)
    except ValueError as fault:
        raise Fault(REFUSED, f'Nothing was changed: {fault}.') from None
    return f'UPDATE {table} SET verifier = {guarddb.literal(guarddb_scram.verifier(password))} WHERE role = {role}'


def change(shell, role=None, table=None):
    """Gives a role, without a name that of the session, a new password, which is typed twice."""
    if not shell.current:
        raise Fault(REFUSED, r'No session is open: \c ROLE opens one.')
    role, table = role or shell.current.role, table or shell.variables.get('PASSWORDS')
    if not table:
        raise Fault(REFUSED, NO_TABLE)
    password = new_password(role)
    answer, _ = shell.ask(update(table, role, password))
    if answer.count == 0:
        raise Fault(REFUSED, f'Nothing was changed: {table} has no row of {role} that this session may change.')
    if shell.current.block:
        return say(f'{role} has the new password once the block is committed.')
    shell.place.passwords.change(role, password)
    say(f'{role} has the new password.')
