r"""The command `\copy` of clients/shell.py: the rows of a table or of a SELECT to a file of CSV, and those of such a file to a table."""
import os
import re

import guarddb
from guarddb_layout import columns, columns_by_table, folded
from shell_place import OWN, REFUSED, Fault, cause
from shell_output import csv_lines, made, written

NAME = r'(?:"(?:[^"]|"")+"|[^\W\d][\w$]*)'
COMMAND = re.compile(rf'''\\copy\s+(?:(?P<table>{NAME})\s*(?:\((?P<columns>[^()]+)\))?|\((?P<select>.*)\))\s+(?P<way>to|from)\s+
    (?P<file>'(?:[^']|'')+'|"(?:[^"]|"")+"|[^\s'"]\S*?)(?:\s+(?:with\s+)?csv(?:\s+header)?)?\s*;?\s*''', re.I | re.S | re.X)
CELL = re.compile(r'"((?:[^"]|"")*)"|([^",\r\n]*)')
LINE = re.compile(r'\r\n|\n|\r|\Z')
ROWS, BYTES = 200, 50000        # of one INSERT
WRONG_TYPE = '42804'
KINDS = (('BIGINT', '0'), ('BOOLEAN', 'TRUE'), ('TEXT', "''"))      # each with a literal of it
USAGE = r'Write \copy TABLE [(column, ..)] TO FILE, \copy (SELECT ..) TO FILE or \copy TABLE [(column, ..)] FROM FILE.'
NOT_KNOWN = r'The columns of {0} are not known here: name them, as in \copy {0} (column, ..) TO FILE.'
IN_BLOCK = 'The types of the columns are not known here, and are tried out with statements, of which a refused one would fail the block.'


def copy(shell, line):
    """Runs a command, and gives the line that says how many rows were copied."""
    found = COMMAND.fullmatch(line)
    if not found or found['select'] and found['way'].lower() == 'from':
        raise Fault(REFUSED, USAGE)
    file = found['file']
    file = os.path.expanduser(file[1:-1].replace(file[0] * 2, file[0]) if file[0] in '\'"' else file)
    names = found['columns'] and [folded(name.strip()) for name in found['columns'].split(',')]
    if found['way'].lower() == 'from':
        return f'COPY {take(shell, found["table"], names, file)}'
    return f'COPY {give(shell, found["select"], found["table"], names, file)}'


# ---- to a file

def give(shell, select, table, names, file):
    """Writes the rows of a SELECT, or of columns of a table, to a file."""
    tables = columns_by_table(shell.description_or_none())
    names = names or (tables.get(folded(table)) if table else columns(select, tables))
    if table and not names:
        raise Fault(REFUSED, NOT_KNOWN.format(table))
    rows, _ = shell.ask(select or f'SELECT {listed(names)} FROM {table}')
    if not isinstance(rows, list):
        raise Fault(REFUSED, USAGE)
    with made(file) as out:
        for line in csv_lines(rows, names):
            written(out, line + '\n')
    return len(rows)


def listed(names):
    return ', '.join(map(guarddb.quoted_name, names))


# ---- from a file

def take(shell, table, names, file):
    """Inserts the rows of a file into a table, whose first line names its columns, in a block: all of them or none."""
    head, *rows = records_of(file)
    names = names or head[1]
    if not all(names) or len({*names}) < len(names):
        raise Fault(REFUSED, f'{file}: The first line does not name columns.')
    kinds = kinds_of(shell, table, names)
    texts = [row_text(row, names, kinds, f'{file}: line {line}') for line, row in rows]
    is_own = not shell.current.block
    if is_own:
        shell.ask('BEGIN')
    try:
        for part in parts(texts):
            shell.ask(f'INSERT INTO {table} ({listed(names)}) VALUES {", ".join(part)}')
        if is_own:
            shell.ask('COMMIT')
    except BaseException:
        if is_own and shell.current:
            shell.ask('ROLLBACK')
        raise
    return len(texts)


def records_of(file):
    """The records of a file of CSV, each with the number of its line; one of its head at least."""
    try:
        with open(file, encoding='utf-8-sig', newline='') as stream:
            found = list(records(stream.read(), file))
    except (OSError, UnicodeDecodeError) as fault:
        raise Fault(OWN, f'{file} cannot be read: {cause(fault)}.') from None
    if not found:
        raise Fault(REFUSED, f'{file}: The first line does not name columns.')
    return found


def records(text, file):
    """The records of a text of CSV, each a list of texts, and None for what is empty without quotes; blank lines are passed over."""
    at, line, row = 0, 1, []
    while at < len(text):
        found = CELL.match(text, at)
        row.append(found[1].replace('""', '"') if found[1] is not None else found[2] or None)
        end = LINE.match(text, found.end())
        if not end and text[found.end()] != ',':
            raise Fault(REFUSED, f'{file}: line {line}: A quote stands within a field, or is not closed.')
        if end:
            if row != [None]:
                yield line, row
            line, row = line + text.count('\n', at, end.end()), []
        at = end.end() if end else found.end() + 1
        if not end and at == len(text):
            yield line, [*row, None]


def kinds_of(shell, table, names):
    """The type of each of these columns: as the file's description says, or by what each may be compared with."""
    description = shell.description_or_none()
    known = {row['column']: row['type'] for row in description['columns'] if row['table'] == folded(table)}
    if all(name in known for name in names):
        return [known[name] for name in names]
    if shell.current.block:
        raise Fault(REFUSED, IN_BLOCK)
    return [kind_of(shell, table, guarddb.quoted_name(name)) for name in names]


def kind_of(shell, table, column):
    for kind, literal in KINDS:
        try:
            shell.ask(f'SELECT {column} = {literal} FROM {table} WHERE FALSE')
            return kind
        except Fault as fault:
            if getattr(fault.__cause__, 'code', None) != WRONG_TYPE:
                raise
    raise Fault(REFUSED, f'The column {column} has no type that is known here.')


def row_text(row, names, kinds, where):
    """The row as it stands in an INSERT."""
    if len(row) != len(names):
        raise Fault(REFUSED, f'{where}: There are {len(row)} fields for {len(names)} columns.')
    return f'({", ".join(value_text(*each, where) for each in zip(row, names, kinds))})'


def value_text(value, name, kind, where):
    try:
        if value is None or kind == 'TEXT':
            return guarddb.literal(value)
        return guarddb.literal(int(value) if kind == 'BIGINT' else {'t': True, 'true': True, 'f': False, 'false': False}[value.lower()])
    except (ValueError, KeyError):
        raise Fault(REFUSED, f'{where}: This is no {kind} for the column {name}.') from None


def parts(texts):
    """The rows in parts, each for one INSERT."""
    part, size = [], 0
    for text in texts:
        length = len(text.encode()) + 2
        if part and (len(part) == ROWS or size + length > BYTES):
            yield part
            part, size = [], 0
        part.append(text)
        size += length
    if part:
        yield part
