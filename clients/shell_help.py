"""What clients/shell.py says of itself, of statements and of refusals."""
import re

import guarddb
from guarddb_syntax import EXPRESSIONS, GRAMMAR, PARTS

KEYWORDS = sorted({*re.findall('[A-Z_]+', GRAMMAR + PARTS + EXPRESSIONS)})

HELP = r'''Statements end with ; and may take several lines. Ctrl-C discards the text typed so far.

  \c NAME [ROLE]     switches to the session NAME, opening it for ROLE, or for the role NAME, if there is none
  \close [NAME]      closes a session, by default the current one; its open block is rolled back
  \conninfo          shows the server and the open sessions
  \g [FILE]  \gx     runs the text typed so far, its answer to FILE; \gx shows each column on a line of its own
  \copy T TO FILE    writes the rows of the table T, or of (SELECT ..), to a file of CSV; T FROM FILE inserts them
  \d [NAME]          lists the tables of the file, or the columns and policies of one; \dt [NAME] the tables
  \dp  \du [NAME]    list the privileges on tables, the roles
  \echo [-n] TEXT    prints TEXT; -n leaves out the newline
  \e [FILE]          edits the text typed so far, or the last statement, or a file, and runs it
  \p  \r             shows, discards the text typed so far
  \password [R [T]]  asks for a new password of the role R, and has the table T keep its verifier
  \h [WORD ..]       shows the syntax of all statements, or of those that begin with these words
  \i FILE            runs the statements and commands in a file
  \o [FILE]          sends answers to a file, and without one to the terminal again
  \pset [NAME VALUE] null TEXT, format aligned or csv, pager on or off
  \set [NAME TEXT]   sets a variable: :NAME stands for TEXT, :'NAME' for the literal, :"NAME" for the name; alone it lists them
  \unset NAME        forgets a variable
  \timing [on|off]   shows how long each statement takes
  \watch [SECONDS]   runs the text typed so far, or the last statement, again and again, until Ctrl-C
  \x [on|off|auto]   shows each column on a line of its own; auto: if a row is wider than the terminal
  \?                 shows this help
  \q                 leaves, as Ctrl-D does'''

SPELLING = 'Check the spelling. Without double quotes, A to Z count as a to z.'
ADVICE = {
    '08003': r'\c ROLE opens a session.',
    '0LP01': 'Grant the option to roles by name, not to PUBLIC; a role cannot become a member of its own members.',
    '22003': f'BIGINT holds {guarddb.LEAST} to {guarddb.GREATEST}.',
    '22012': 'Exclude such rows, as in WHERE x <> 0 AND 10 / x > 1. A policy of the table may divide, too.',
    '23502': 'Give the column a value; a column that an INSERT does not name is null.',
    '23505': 'Use another key, or UPDATE the existing row, which a policy may hide.',
    '25P02': 'ROLLBACK ends the block.',
    '28000': r"The case of the name counts. A superuser can create the role: CREATE ROLE name LOGIN. If an open session's role is gone, "
             r'\close ends the session.',
    '2B000': 'REVOKE .. CASCADE also takes what depends on it.',
    '2BP01': 'Drop its tables and the policies that name it, and revoke what it was granted and what it has granted. No role drops itself.',
    '42501': r"A table's owner can GRANT privileges and write policies; RESET ROLE and \c ROLE change the acting role.",
    '42601': r'\h shows the syntax of statements.',
    '42622': 'Use a shorter name.',
    '42701': 'Name each column once.',
    '42702': 'Write it with its table: table.column.',
    '42703': 'Check the spelling. Texts take single quotes, names take double quotes.',
    '42704': SPELLING,
    '42710': 'Use another name, or DROP the existing one first.',
    '42712': 'Give one of them an alias: FROM t, t AS u.',
    '42804': 'No type converts to another: write texts in single quotes, numbers and booleans without.',
    '42P01': SPELLING,
    '42P07': 'Use another name, or DROP TABLE first.',
    '53100': 'Delete rows, or copy the database to a larger file: guarddb copy FILE NEW --pages N.',
    '53200': 'Try again, or ask for fewer rows.',
    '53300': r'\close ends a session.',
    '54000': 'docs/sql.md lists the limits.',
    '55P03': "Try again when the other session's block has ended.",
    '58030': 'Leave, check the device, and open the file again.',
}


def explained(code, where=''):
    """A refusal: the code, its name and its meaning, where it came, if that is known, and what to do."""
    hint = f'HINT:  {ADVICE[code]}' if code in ADVICE else ''
    return '\n'.join(filter(None, [f'ERROR:  {guarddb.described(code)}', where, hint]))


def forms(words):
    """The syntax of the statements that begin with these words, and of their parts; of all statements, if none does."""
    begin = ' '.join(words).upper().rstrip(';')
    lines = [line for line in GRAMMAR.split('\n') if begin and line.startswith(begin)]
    if not lines:
        return (GRAMMAR + PARTS + EXPRESSIONS).strip('\n')
    parts = parts_of('\n'.join(lines))
    return '\n'.join(lines + [''] * bool(parts) + parts)


def parts_of(text):
    """The lines of the parts that a text names, and of those that these name."""
    parts = {line.split()[0]: line for line in (PARTS + EXPRESSIONS).split('\n') if line}
    named, left = set(), [text]
    while left:
        found = {word for word in re.findall('[a-z]+', left.pop()) if word in parts} - named
        named |= found
        left += [parts[word].partition('=')[2] for word in found]
    return [line for word, line in parts.items() if word in named]


def next_words(words):
    """The keywords with which statements that begin with these words go on."""
    begin = [word.upper() for word in words]
    forms = [line.split() for line in GRAMMAR.split('\n')]
    found = {form[len(begin)] for form in forms if form[:len(begin)] == begin and len(form) > len(begin)}
    return sorted(found & {*KEYWORDS})
