"""What `guarddb describe` tells of a database in a file, and the names of an answer's columns.

    tables = guarddb_layout.tables('shop.db')                   # {'notes': ['k', 'tenant', 'note']}
    guarddb_layout.columns('SELECT * FROM notes', tables)       # ['k', 'tenant', 'note']
    guarddb_layout.columns('SELECT n.k, 1 + 2 FROM notes n')    # ['k', '1 + 2']

An answer has no names of columns. Those of a SELECT's list stand in the statement, and those of `SELECT *` in the tables. A place of
`--at` tells them, too, where it is asked: `guarddb.connect(5433, names=True)`.
"""
import json
import os
import re
import struct
import subprocess

from guarddb_syntax import tokens_of

ENDS_TABLES = ('WHERE', 'ORDER', 'LIMIT')
COLUMN = re.compile(r'(?!(?:TRUE|FALSE|NULL|CURRENT_USER|SESSION_USER)\Z)(?:"|[^\W\d]).*', re.DOTALL)
APART = re.compile(r"""('[^']*'|"[^"]*")|(?:\s|--[^\n\r]*)+""")


ROOT = struct.Struct('>8sIIQ')      # of a root sector: the magic, the format, the pages, the number
SECTOR, MAGIC = 512, b'GUARDDB1'


class NotDescribed(Exception):
    """A file cannot be described; the text says why."""


def program():
    """The program that GUARDDB names, else the one at the top of the repository, else the one on the PATH."""
    beside = os.path.join(os.path.dirname(os.path.realpath(__file__)), '..', 'guarddb')
    return os.environ.get('GUARDDB') or (os.path.normpath(beside) if os.path.isfile(beside) else 'guarddb')


def format_of(path):
    """The format of a file, by the root of the greater number; None where it has no root."""
    with open(path, 'rb') as file:
        sectors = [file.read(SECTOR) for _ in range(2)]
    roots = [ROOT.unpack_from(sector) for sector in sectors if len(sector) == SECTOR]
    return max(((number, kind) for magic, kind, _, number in roots if magic == MAGIC), default=(0, None))[1]


def described(file, program='guarddb'):
    """What `guarddb describe FILE --json` tells of a file that no server has open: a list of rows, each a dict, for each of `roles`,
    `memberships`, `tables`, `columns`, `privileges` and `policies`."""
    try:
        done = subprocess.run([program, 'describe', file, '--json'], stdin=subprocess.DEVNULL, capture_output=True)
    except OSError as fault:
        raise NotDescribed(f'{program} cannot be started: {fault.strerror}') from None
    if done.returncode:
        raise NotDescribed(done.stderr.decode(errors='replace').strip() or f'{program} ended with status {done.returncode}')
    return json.loads(done.stdout)


def columns_by_table(description):
    """The names of the columns of each table, in their order."""
    found = {row['table']: [] for row in description['tables']}
    for row in description['columns']:
        found[row['table']].append(row['column'])
    return found


def tables(file, program='guarddb'):
    """The names of the columns of each table of a file that no server has open."""
    return columns_by_table(described(file, program))


def folded(word):
    """The name that a word stands for, or a name in quotes."""
    return word[1:-1].replace('""', '"') if word[0] == '"' else re.sub('[A-Z]', lambda found: found[0].lower(), word)


def words_of(statement):
    """The tokens of a statement: each as it is written, or in capitals if it is a keyword that is no name, and where it begins and
    ends."""
    return [(statement[begin:end] if 'name' in kinds or not min(kinds).isupper() else min(kinds), begin, end)
            for kinds, begin, end in tokens_of(statement)]


def listed(words):
    """The items of a SELECT's list, each a list of words, and the words behind the list; none of another statement."""
    if not words or words[0][0].upper() != 'SELECT':
        return [], []
    items, depth = [[]], 0
    for at, word in enumerate(words[1:], 1):
        depth += {'(': 1, ')': -1}.get(word[0], 0)
        if word[0] in ('FROM', ';'):
            return items, words[at:]
        if word[0] == ',' and depth == 0:
            items.append([])
        else:
            items[-1].append(word)
    return items, []


def tables_named(words):
    """The tables of the words from FROM on, in their order."""
    found, is_list = [], True
    for (before, _, _), (word, _, _) in zip(words, words[1:]):
        is_list = is_list and before not in ENDS_TABLES
        if is_list and before in ('FROM', ',') or before.upper() == 'JOIN':
            found.append(folded(word))
    return found


def item_name(item, statement):
    """The name of an item of a SELECT's list: that of the column which it is, else its text, with a blank for each comment."""
    words = [word for word, _, _ in item]
    if COLUMN.fullmatch(words[-1]) and (len(words) == 1 or len(words) == 3 and words[1] == '.'):
        return folded(words[-1])
    return APART.sub(lambda found: found[1] or ' ', statement[item[0][1]:item[-1][2]])


def is_all(items):
    """Whether the items of a SELECT's list are `*`."""
    return [[word for word, _, _ in item] for item in items] == [['*']]


def is_star(statement):
    """Whether a statement is a `SELECT *`."""
    return is_all(listed(words_of(statement))[0])


def columns(statement, tables=None):
    """The names of the columns of a SELECT's answer; None for another statement, and for `*` of a table that is not in `tables`."""
    items, behind = listed(words_of(statement))
    if not is_all(items):
        return [item_name(item, statement) for item in items if item] or None
    found = [(tables or {}).get(name) for name in tables_named(behind)]
    return [name for names in found for name in names] if found and None not in found else None
