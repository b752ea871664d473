"""Requests of labels of a SELECT's list, and their answers.

Braces show where labels stand, and are no part of a text. Beside it stand the names that PostgreSQL 15 tells for the columns of labelled
items, asked of a table `t (k bigint, x bigint, s boolean, o text, n text)`; None is an item without a label. Texts of REFUSED are errors
there, those of SORTED it sorts by a label that is no column of that name.
"""
LABELLED = [
    ('SELECT count(*) {AS n} FROM t', ['n']),
    ('SELECT k {AS key}, x FROM t', ['key', None]),
    ('SELECT k {AS "Key"}, x + 1 {AS y} FROM t WHERE k < 3', ['Key', 'y']),
    ('SELECT k {AS "a ""b"" c"}, o {as N} FROM t', ['a "b" c', 'n']),
    ('SELECT 1 {AS user}, \'AS x\' {AS "end"}', ['user', 'end']),
    ('SELECT (l.k + 1) * 2 {AS left} FROM t AS l JOIN t AS u ON l.k = u.k', ['left']),
    ('SELECT t.k {AS k}, t.x {AS y} FROM t ORDER BY k', ['k', 'y']),
    ('SELECT k {AS k}, o {AS p} FROM t ORDER BY t.o, k LIMIT 2;', ['k', 'p']),
    ('SELECT o {AS "FROM t"}, x FROM t WHERE o = \'k AS z\'', ['FROM t', None]),
    ('SELECT x IS NULL {AS missing}, - k {AS minus} FROM t', ['missing', 'minus']),
    ('SELECT 1 {AS "$1"}, k {AS "; DROP TABLE t --"}, \'$2 AS x\' {AS "\'"} FROM t', ['$1', '; DROP TABLE t --', "'"]),
]
PLAIN = ['SELECT k FROM t', 'SELECT "AS" FROM t', 'INSERT INTO t (k) VALUES (1)', 'UPDATE t AS u SET k = 1', '']
ALIASES = ['SELECT k FROM t AS u', 'SELECT k, x FROM t AS u JOIN t AS v ON u.k = v.k']
REFUSED = [
    'SELECT * AS x FROM t',
    'SELECT k AS FROM t',
    'SELECT AS k FROM t',
    'SELECT k AS a b FROM t',
    'SELECT k AS 5 FROM t',
    'SELECT k AS a AS b FROM t',
    'SELECT (k AS a) FROM t',
    "SELECT k AS a, 'open FROM t",
]
SORTED = ['SELECT x AS k FROM t ORDER BY k', 'SELECT - k AS k FROM t ORDER BY k']


def made_of(marked):
    """A text with blanks where its labels stand, and with its labels."""
    made, written = '', ''
    for number, part in enumerate(marked.replace('}', '{').split('{')):
        made += ' ' * len(part) if number % 2 else part
        written += part
    return made, written


def pairs():
    for marked, labels in LABELLED:
        made, written = made_of(marked)
        digits = ' '.join(it.encode().hex() if it else '-' for it in labels)
        yield f'labels {written}', f'made {digits} {made}'
    for text in PLAIN:
        yield f'labels {text}', 'plain'
    for text in [*ALIASES, *REFUSED, *SORTED]:
        yield f'labels {text}', 'stays'
