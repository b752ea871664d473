"""The texts of clients/shell.py: cuts what is typed into statements, and lays out the rows of an answer."""
import re
import unicodedata

import guarddb

STOP = re.compile(rf'{guarddb.QUOTED}|;')
COMMAND = re.compile(rf'{guarddb.QUOTED}|\\')
BLANK = re.compile(r'--[^\n\r]*|[ \t\n\f\r]')
PART = re.compile(rf'{guarddb.QUOTED}|[(),]|[^\W\d][\w$]*')
NAME = re.compile(r''''[^']*'?|--[^\n\r]*|("[^"]*"|[^\W\d][\w$]*)''')
HIDDEN = ('Cc', 'Cf', 'Cs', 'Zl', 'Zp')         # characters that a terminal obeys or hides
HEAD_WIDTH = 32


class Letters(dict):
    """What a function makes of letters, for `str.translate`: it is called once for each."""
    def __init__(self, made):
        super().__init__()
        self.made = made

    def __missing__(self, code):
        return self.setdefault(code, self.made(chr(code)))


def spelled(letter):
    is_hidden = letter == '\\' or unicodedata.category(letter) in HIDDEN
    return letter.encode('unicode_escape').decode() if is_hidden else letter


def filled(letter):
    """As many blanks as a letter takes columns."""
    return ' ' * (0 if unicodedata.category(letter) in ('Mn', 'Me') else 2 if unicodedata.east_asian_width(letter) in 'WF' else 1)


SPELLED, FILLED = Letters(spelled), Letters(filled)


def split(text):
    """The statements of a text, each without the `;` that ends it, and the rest."""
    ends = [found.start() for found in STOP.finditer(text) if found[0] == ';']
    return [text[begin:end] for begin, end in zip([0] + [end + 1 for end in ends], ends + [len(text)])]


def command_at(text):
    """Where the command of a text begins, by a backslash outside texts, quoted names and comments; at its end if there is none."""
    return next((found.start() for found in COMMAND.finditer(text) if found[0] == '\\'), len(text))


def open_quote(text):
    """The quote that is open at the end of a text, or else an empty text."""
    *_, last = ['', *(found[0] for found in STOP.finditer(text) if found.end() == len(text))]
    return last[0] if last[:1] in ('"', "'") and (len(last) == 1 or last[-1] != last[0]) else ''


def is_blank(text):
    return BLANK.sub('', text) == ''


def first_word(statement):
    return BLANK.sub(' ', statement).split()[0].upper()


def names_in(statement):
    """Its words and its names in quotes."""
    return {found[1] for found in NAME.finditer(statement) if found[1]}


def heads(statement):
    """The text of each column in the list of a SELECT; None for `*`."""
    parts, begin, depth = [], None, 0
    for found in PART.finditer(statement + '\nFROM'):
        word = found[0].upper()
        depth += {'(': 1, ')': -1}.get(word, 0)
        if begin is not None and depth == 0 and word in (',', 'FROM'):
            parts.append(head(statement[begin:found.start()]))
        if begin is None and word == 'SELECT' or depth == 0 and word == ',':
            begin = found.end()
        if word == 'FROM' and depth == 0:
            return None if parts == ['*'] else parts


def head(part):
    """A column of a SELECT's list on one line, without comments, cut if it is long."""
    text = re.sub(guarddb.QUOTED, lambda found: ' ' if found[0][0] == '-' else found[0], part)
    text = shown(' '.join(text.split()))
    return text if len(text) <= HEAD_WIDTH else text[:HEAD_WIDTH - 1] + '…'


def field(value, null='NULL'):
    """A field as it is shown: NULL, or what stands for it, or its text, in quotes if it could be mistaken for something else."""
    if value is None:
        return null
    is_plain = value not in ('', 'NULL', null) and value[0] != "'" and value == value.strip()
    return shown(value if is_plain else "'" + value.replace("'", "''") + "'")


def shown(text):
    """A text with its backslashes and hidden characters written as escapes."""
    return text if text.isascii() and text.isprintable() and '\\' not in text else text.translate(SPELLED)


def width(text):
    """How many columns of a terminal a text takes."""
    return len(text) if text.isascii() else len(unicodedata.normalize('NFC', text).translate(FILLED))


def padded(text, columns, at_right=False):
    blanks = ' ' * (columns - width(text))
    return blanks + text if at_right else text + blanks


def in_columns(rows, names, null='NULL'):
    """The lines of a table: its head, if there are names, and its rows. Columns of numbers are aligned to the right."""
    lines = ([names] if names else []) + [[field(value, null) for value in row] for row in rows]
    widths = [max(map(width, column)) for column in zip(*lines)]
    at_right = [all(value is None or re.fullmatch('-?[0-9]+', value) for value in column) for column in zip(*rows)]
    at_right += [False] * len(widths)       # if there are no rows
    lines = [' ' + ' | '.join(map(padded, line, widths, at_right)) for line in lines]
    if names:
        lines.insert(1, '-' + '-+-'.join('-' * columns for columns in widths) + '-')
    return [line.rstrip() for line in lines]


def in_lines(rows, names, null='NULL'):
    """The lines of the same rows, one for each column, and one more for each newline in a text."""
    names = names or [str(number) for number in range(1, len(rows[0]) + 1)] if rows else []
    columns = max(map(width, names), default=0)
    newline = '\n' + ' ' * columns + ' | '
    for number, row in enumerate(rows, 1):
        yield f'-[ {number} ]'.ljust(columns + 10, '-')
        for name, value in zip(names, row):
            text = re.sub(r'\\(.)', lambda found: found[0] + (newline if found[1] == 'n' else ''), field(value, null))
            yield f'{padded(name, columns)} | {text}'
