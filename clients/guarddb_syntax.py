"""Where a statement goes wrong that the server refuses for its syntax: the grammar of docs/sql.md, followed from left to right.

    >>> error_place('SELECT k FROM t WHERE')
    21
    >>> print(pointed('DROP t'))
    LINE 1: DROP t
                 ^
    EXPECTED:  TABLE, POLICY or ROLE

The server tells a code alone. So the statement is read here once more, after it was refused, and nothing is asked or changed by it.
"""
import functools
import re

# The statements and their parts, as docs/sql.md has them.
GRAMMAR = '''
SELECT list [FROM source]
SELECT COUNT "(" "*" ")" [FROM source]
INSERT INTO name ["(" names ")"] VALUES row {"," row}
UPDATE name SET assignment {"," assignment} [WHERE expr]
DELETE FROM name [WHERE expr]

CREATE TABLE name "(" element {"," element} ")"
DROP TABLE name
ALTER TABLE name (ENABLE | DISABLE | FORCE | NO FORCE) ROW LEVEL SECURITY
CREATE POLICY name ON name [AS kind] [FOR command] [TO grantees] [USING "(" expr ")"] [WITH CHECK "(" expr ")"]
DROP POLICY name ON name

CREATE ROLE name [WITH] {attribute}
DROP ROLE name
GRANT names TO names [WITH ADMIN OPTION]
REVOKE [ADMIN OPTION FOR] names FROM names [CASCADE | RESTRICT]
SET ROLE (NONE | name)
RESET ROLE

GRANT privileges ON [TABLE] name TO grantees [WITH GRANT OPTION]
REVOKE [GRANT OPTION FOR] privileges ON [TABLE] name FROM grantees [CASCADE | RESTRICT]

BEGIN [WORK | TRANSACTION]
START TRANSACTION
COMMIT [WORK | TRANSACTION]
ROLLBACK [WORK | TRANSACTION]
'''
PARTS = '''
element    = name type {NOT NULL | PRIMARY KEY}  |  PRIMARY KEY "(" names ")"
type       = BIGINT | TEXT | BOOLEAN | BOOL
names      = name {"," name}
row        = "(" expr {"," expr} ")"
list       = "*" | expr {"," expr}
source     = tables [WHERE expr] [ORDER BY key {"," key}] [LIMIT number]
tables     = table {"," table}  |  table {join}
table      = name [[AS] name]
join       = CROSS JOIN table  |  [INNER] JOIN table ON expr
key        = expr [ASC | DESC]
assignment = name "=" expr
attribute  = SUPERUSER | NOSUPERUSER | LOGIN | NOLOGIN | BYPASSRLS | NOBYPASSRLS
privileges = ALL [PRIVILEGES] ["(" names ")"]  |  item {"," item}
item       = action ["(" names ")"]
action     = SELECT | INSERT | UPDATE | DELETE
grantees   = grantee {"," grantee}
grantee    = PUBLIC | name
kind       = PERMISSIVE | RESTRICTIVE
command    = ALL | SELECT | INSERT | UPDATE | DELETE
'''
# Expressions, with the operators of the page: the loosest first.
EXPRESSIONS = '''
expr       = expr OR expr  |  expr AND expr  |  NOT expr  |  expr IS [NOT] NULL  |  expr comparison expr  |  term
term       = term ("+" | "-") term  |  term ("*" | "/" | "%") term  |  "-" term  |  operand
comparison = "="  |  "<>"  |  "!="  |  "<"  |  "<="  |  ">"  |  ">="
operand    = number | text | TRUE | FALSE | NULL | CURRENT_USER | SESSION_USER | [name "."] name | "(" expr ")" | MEMBER OF operand
'''
# The same expressions, in which no part begins with itself, and each operator groups as the page says.
FOLLOWED = '''
expr       = all {OR all}
all        = not {AND not}
not        = {NOT} test
test       = compared {IS [NOT] NULL}
compared   = sum [comparison sum]
sum        = product {("+" | "-") product}
product    = signed {("*" | "/" | "%") signed}
signed     = {"-"} (operand | "-" great)
key        = expr end_of_key [ASC | DESC]
'''
# What is asked of a statement beside its grammar, in the words of docs/sql.md, by what it begins with.
FORMS = {
    'CREATE ROLE': 'No attribute of a role is beside its contrary.',
    'CREATE TABLE': 'A table has one primary key, and each PRIMARY KEY counts.',
    'INSERT': 'The rows of VALUES have one length: with a column list as many values as it names, else at most as many as there are columns.',
    'SELECT': '* and count(*) need FROM, and count(*) takes no ORDER BY and no LIMIT.',
    'GRANT': 'GRANT and REVOKE name no columns with DELETE.',
    'REVOKE': 'GRANT and REVOKE name no columns with DELETE.',
    'CREATE POLICY': 'A policy for INSERT has WITH CHECK alone, one for SELECT or DELETE has USING alone, and every other one has USING.',
}
RESERVED = {*'''ALL AND AS ASC CHECK CREATE CROSS CURRENT_USER DESC FALSE FOR FROM GRANT INNER INTO IS JOIN LIMIT NONE
    NOT NULL ON OR ORDER PRIMARY PUBLIC SELECT SESSION_USER TABLE TO TRUE USING WHERE WITH'''.split()}
LETTER = 'A-Za-z_\x80-\U0010ffff'
TOKEN = re.compile(rf'''(?P<blank>[ \t\n\r\f]+|--[^\n\r\0]*)
    |(?P<word>[{LETTER}][{LETTER}0-9$]*)
    |(?P<number>[0-9]+(?![{LETTER}0-9]))
    |(?P<name>"(?:[^"\0]|"")+")
    |(?P<text>'(?:[^'\0]|\'\')*')
    |(?P<sign><>|!=|<=|>=|[(),;.*+\-/%=<>])''', re.VERBOSE)
GREATEST = 2 ** 63 - 1
WORD = re.compile(r'"([^"]*)"|(\w+)|([][(){}|])')
ONE, SEQUENCE, ANY, END_OF_KEY = 'one of', 'one after the other', 'any number of', 'end_of_key'
END, FAULT = 'the end of the statement', 'fault'
MOST = 6            # words that are told as expected
BEFORE, BESIDE = 60, 100        # columns of a line that are shown before a place, and in all


# ---- the grammar, read

def alternatives(words):
    """Reads a part of the grammar up to what closes it: a tuple that begins with what it is, one of alternatives, a sequence, or what
    may come any number of times. A word in capitals, or a sign, stands for itself, another word for a part."""
    found = [(SEQUENCE,)]
    while words and words[0] not in (')', ']', '}'):
        word = words.pop(0)
        if word == '|':
            found.append((SEQUENCE,))
            continue
        if word in ('(', '[', '{'):
            inside = alternatives(words)
            words.pop(0)
            word = (ANY, inside) if word == '{' else (ONE, inside, (SEQUENCE,)) if word == '[' else inside
        found[-1] += (word,)
    return (ONE, *found)


def read(text):
    """What a text of the grammar says. A sign in quotes is read with a quote before it."""
    return alternatives([f'"{sign}' if sign else word or mark for sign, word, mark in WORD.findall(text)])


@functools.lru_cache(None)
def rules():
    """Each part of the grammar by its name, and `statement`."""
    lines = [line.split('=', 1) for line in (PARTS + EXPRESSIONS + FOLLOWED).split('\n') if line]
    statements = [read(line) for line in GRAMMAR.split('\n') if line]
    return {**{name.strip(): read(text) for name, text in lines}, 'statement': (SEQUENCE, (ONE, *statements), read('[";"]'))}


# ---- a statement, followed

def tokens_of(text):
    """The tokens of a text up to its first fault, which is one too: what each is in the grammar, a set, and where it begins and
    ends."""
    found, at = [], 0
    while at < len(text):
        match = TOKEN.match(text, at)
        if not match:
            return [*found, ({FAULT}, at, at + 1)]
        if match.lastgroup != 'blank':
            found.append((meanings(match.lastgroup, match[0]), at, match.end()))
        at = match.end()
    return found


def meanings(kind, text):
    if kind == 'word':
        word = re.sub('[a-z]+', lambda found: found[0].upper(), text)
        return {word} if word in RESERVED else {word, 'name'}
    if kind == 'number':
        return {'number' if int(text) <= GREATEST else 'great'}
    return {f'"{text}' if kind == 'sign' else kind}


class Follower:
    """What may come next of a statement. What is left of it is a chain: its first part and the rest, a chain or None. Chains that are
    alike are one and the same, so that the rounds of a loop find what was found in the first."""
    def __init__(self):
        self.chains, self.known = {}, {}

    def chain(self, part, behind):
        return self.chains.setdefault((part, id(behind)), (part, behind))

    def steps(self, chain):
        """Each word that may come next, what is left behind it, and whether a sort key ended before it."""
        if id(chain) not in self.known:
            self.known[id(chain)] = self.new_steps(chain)
        return self.known[id(chain)]

    def new_steps(self, chain):
        steps, left = [], [(chain, False)]
        while left:
            chain, is_behind_key = left.pop()
            if chain is None or chain[0] == END_OF_KEY:
                left += [(chain[1], True)] if chain else []
                steps += [] if chain else [(END, None, is_behind_key)]
            elif self.is_word(chain[0]):
                steps.append((*chain, is_behind_key))
            else:
                left += [(each, is_behind_key) for each in self.opened(*chain)]
        return steps

    def is_word(self, part):
        return isinstance(part, str) and part not in rules()

    def opened(self, part, behind):
        """What a chain stands for whose first part is no word, the last one first."""
        if isinstance(part, str):
            return [self.chain(rules()[part], behind)]
        if part[0] == ONE:
            return [self.chain(each, behind) for each in reversed(part[1:])]
        if part[0] == ANY:
            return [behind, self.chain(part[1], self.chain(part, behind))]
        for each in reversed(part[1:]):
            behind = self.chain(each, behind)
        return [behind]


def is_number_alone(kinds):
    """Whether the last of these tokens are a sort key that is a number, with a minus or without. No comma stands within a key."""
    begin = kinds[:-2] if kinds[-2:-1] == [{'"-'}] else kinds[:-1]
    return kinds[-1] in ({'number'}, {'great'}) and ('",' in begin[-1] or 'BY' in begin[-1] and 'ORDER' in begin[-2])


def furthest(tokens):
    """The index of the first token at which no statement goes on, or how many there are; and the words that may stand there, in
    the order of the grammar. Where the tokens are a whole statement the end is one of the words."""
    kinds, follower = [kind for kind, _, _ in tokens], Follower()
    left = [follower.chain('statement', None)]
    for at in range(len(kinds) + 1):
        steps = [step for chain in left for step in follower.steps(chain)]
        if any(is_behind_key for _, _, is_behind_key in steps) and is_number_alone(kinds[max(at - 4, 0):at]):
            steps = [step for step in steps if not step[2]]
        left = [behind for word, behind, _ in steps if at < len(kinds) and word in kinds[at]]
        if not left:
            return at, [*dict.fromkeys(word for word, _, _ in steps)]


def error_place(statement):
    """The index of the first character of the first token at which no statement goes on, or the length of a statement that ends too
    early. None where the grammar has the whole of it: then it breaks a rule of form, or has another number of values than columns."""
    tokens = tokens_of(statement)
    at, words = furthest(tokens)
    if at < len(tokens):
        return tokens[at][1]
    return None if END in words else len(statement)


def expected(statement):
    """The words that may stand where a statement goes wrong, as they are told; an empty list where they are too many."""
    _, words = furthest(tokens_of(statement))
    told = ['"' + word[1:] + '"' if word[0] == '"' else f'a {word}' if word.islower() and word != END else word
            for word in words if word not in ('great', '";')]
    return told if len(told) <= MOST else []


def form(statement):
    """The rule of form that a statement of the grammar may break."""
    words = [re.sub('[^A-Z].*', '', min(kind)) for kind, _, _ in tokens_of(statement.upper())[:2]]
    return FORMS.get(' '.join(words)) or FORMS.get(words[0] if words else '')


# ---- what is told

def printable(text):
    return ''.join(letter if letter.isprintable() else ' ' for letter in text)


def pointed(statement, shown=printable, width=len):
    """The line in which a statement goes wrong that was refused for its syntax, with a mark below the place, and what is expected
    there; or the rule of form that it may break. `shown` makes of a text what is printed, and `width` counts its columns."""
    place = error_place(statement)
    if place is None:
        rule = form(statement)
        return f'FORM:  {rule}' if rule else ''
    words = expected(statement)
    place = min(place, len(statement.rstrip()))
    line, before = cut(statement, place)
    head = f'LINE {statement.count(chr(10), len(statement) - len(statement.lstrip()), place) + 1}: '
    lines = [head + shown(line), ' ' * (len(head) + width(shown(before))) + '^']
    if words:
        lines.append(f'EXPECTED:  {" or ".join(filter(None, [", ".join(words[:-1]), words[-1]]))}')
    return '\n'.join(lines)


def cut(statement, place):
    """The line of a place without the blanks that it begins with, and what of it stands before the place; of a long line a part."""
    begin = statement.rfind('\n', 0, place) + 1
    line = statement[begin:].partition('\n')[0]
    blanks = min(len(line) - len(line.lstrip()), place - begin)
    line, at = line[blanks:], place - begin - blanks
    if at > BEFORE:
        line, at = '…' + line[at - BEFORE + 1:], BEFORE
    return line if len(line) <= BESIDE else line[:BESIDE - 1] + '…', line[:at]
