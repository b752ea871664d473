#!/usr/bin/env python3
"""Counts in how many statements of a script each command, form and operator of the grammar in docs/sql.md stands:

    python3 scripts/forms.py SCRIPT

A line for each, the rarest first; the last line counts the statements, and those that are not refused by model.py. Statements
that are not read (42601 and the like) count for no form.
"""
import collections
import re
import sys

import model

NAME = r'\w+'
TABLE = rf'{NAME}(?: (?:AS )?(?!JOIN|CROSS|INNER|WHERE|ORDER|LIMIT){NAME})?'
OF_ROLES = rf'{NAME}(?:, {NAME})*'

# Forms by their words. Blanks are single, and texts empty, where these are looked for.
WORDS = {
    'SELECT': 'SELECT ',
    'SELECT without FROM': '(?!.* FROM )SELECT ',
    'SELECT *': r'SELECT \* ',
    'SELECT count(*)': r'SELECT COUNT\(\*\)',
    'FROM with a comma': rf'SELECT .* FROM {TABLE}, ',
    'CROSS JOIN': 'SELECT .* CROSS JOIN ',
    'INNER JOIN': 'SELECT .* INNER JOIN ',
    'JOIN alone': 'SELECT .*(?<!CROSS)(?<!INNER) JOIN ',
    'AS before an alias': f'SELECT .*(?:FROM|,|JOIN) {NAME} AS {NAME}',
    'an alias without AS': rf'SELECT .*(?:FROM|,|JOIN) {NAME} (?!AS |JOIN|CROSS|INNER|ON |WHERE|ORDER|LIMIT){NAME}',
    'SELECT with WHERE': 'SELECT .* WHERE ',
    'ORDER BY': 'SELECT .* ORDER BY ',
    'ASC': r'SELECT .* ASC\b',
    'DESC': r'SELECT .* DESC\b',
    'LIMIT': r'SELECT .* LIMIT \d',
    'INSERT': 'INSERT INTO ',
    'INSERT with columns': rf'INSERT INTO {NAME} \(',
    'INSERT without columns': f'INSERT INTO {NAME} VALUES',
    'UPDATE': 'UPDATE ',
    'UPDATE with WHERE': 'UPDATE .* WHERE ',
    'UPDATE without WHERE': 'UPDATE (?!.* WHERE )',
    'DELETE': 'DELETE FROM ',
    'DELETE with WHERE': 'DELETE FROM .* WHERE ',
    'DELETE without WHERE': rf'DELETE FROM {NAME}$',
    'CREATE TABLE': 'CREATE TABLE ',
    'DROP TABLE': 'DROP TABLE ',
    'BIGINT': rf'CREATE TABLE .*{NAME} BIGINT\b',
    'TEXT': rf'CREATE TABLE .*{NAME} TEXT\b',
    'BOOLEAN': rf'CREATE TABLE .*{NAME} BOOLEAN\b',
    'BOOL': rf'CREATE TABLE .*{NAME} BOOL\b',
    'NOT NULL': 'CREATE TABLE .* NOT NULL',
    'PRIMARY KEY of a column': r'CREATE TABLE .* PRIMARY KEY(?! \()',
    'PRIMARY KEY of names': r'CREATE TABLE .* PRIMARY KEY \(',
    'ENABLE': f'ALTER TABLE {NAME} ENABLE ',
    'DISABLE': f'ALTER TABLE {NAME} DISABLE ',
    'FORCE': f'ALTER TABLE {NAME} FORCE ',
    'NO FORCE': f'ALTER TABLE {NAME} NO FORCE ',
    'CREATE POLICY': 'CREATE POLICY ',
    'DROP POLICY': 'DROP POLICY ',
    'AS PERMISSIVE': 'CREATE POLICY .* AS PERMISSIVE',
    'AS RESTRICTIVE': 'CREATE POLICY .* AS RESTRICTIVE',
    **{f'policy FOR {command}': f'CREATE POLICY .* FOR {command} ' for command in ['ALL', *model.ACTIONS]},
    'policy TO': f'CREATE POLICY {NAME} ON [^(]* TO ',
    'USING': r'CREATE POLICY .* USING \(',
    'WITH CHECK': r'CREATE POLICY .* WITH CHECK \(',
    'CREATE ROLE': 'CREATE ROLE ',
    'CREATE ROLE with WITH': f'CREATE ROLE {NAME} WITH ',
    **{attribute: rf'CREATE ROLE {NAME} .*\b{attribute}\b'
       for attribute in ('SUPERUSER', 'NOSUPERUSER', 'LOGIN', 'NOLOGIN', 'BYPASSRLS', 'NOBYPASSRLS')},
    'DROP ROLE': 'DROP ROLE ',
    'GRANT of roles': f'GRANT {OF_ROLES} TO ',
    'WITH ADMIN OPTION': 'GRANT .* WITH ADMIN OPTION',
    'REVOKE of roles': f'REVOKE (?:ADMIN OPTION FOR )?{OF_ROLES} FROM ',
    'ADMIN OPTION FOR': 'REVOKE ADMIN OPTION FOR ',
    'REVOKE of roles with CASCADE': f'REVOKE (?:ADMIN OPTION FOR )?{OF_ROLES} FROM .* CASCADE',
    'REVOKE of roles with RESTRICT': f'REVOKE (?:ADMIN OPTION FOR )?{OF_ROLES} FROM .* RESTRICT',
    'SET ROLE': 'SET ROLE (?!NONE)',
    'SET ROLE NONE': 'SET ROLE NONE',
    'RESET ROLE': 'RESET ROLE',
    'GRANT': 'GRANT .* ON .* TO ',
    'WITH GRANT OPTION': 'GRANT .* WITH GRANT OPTION',
    'REVOKE': 'REVOKE .* ON .* FROM ',
    'GRANT OPTION FOR': 'REVOKE GRANT OPTION FOR ',
    'REVOKE with CASCADE': 'REVOKE .* ON .* CASCADE',
    'REVOKE with RESTRICT': 'REVOKE .* ON .* RESTRICT',
    'ON TABLE': '(?:GRANT|REVOKE) .* ON TABLE ',
    'ON without TABLE': '(?:GRANT|REVOKE) .* ON (?!TABLE)',
    'ALL': '(?:GRANT|REVOKE) .*ALL ON ',
    'ALL PRIVILEGES': '(?:GRANT|REVOKE) .*ALL PRIVILEGES ON ',
    **{f'GRANT of {action}': rf'GRANT .*\b{action}\b.* ON ' for action in model.ACTIONS},
    **{f'REVOKE of {action}': rf'REVOKE .*\b{action}\b.* ON ' for action in model.ACTIONS},
    'GRANT TO PUBLIC': r'GRANT .* ON .* TO .*\bPUBLIC\b',
    'REVOKE FROM PUBLIC': r'REVOKE .* ON .* FROM .*\bPUBLIC\b',
    **{command + word: command + word + '$' for command in ('BEGIN', 'COMMIT', 'ROLLBACK') for word in ('', ' WORK', ' TRANSACTION')},
    'START TRANSACTION': 'START TRANSACTION',
    'the sign <>': '.*<>',
    'the sign !=': '.*!=',
}
PATTERNS = {form: re.compile(words, re.IGNORECASE) for form, words in WORDS.items()}
# Forms of expressions, which are told from the expression as it is read.
OPERATORS = ['OR', 'AND', '=', '<>', '<', '<=', '>', '>=', '+', '-', '*', '/', '%']
LITERALS = {'number': 'a number', 'text': 'a text', 'null': 'NULL'}
OTHERS = ['NOT', 'MEMBER OF', '- before an operand', 'IS NULL', 'IS NOT NULL', 'a column', "a column with its table's name",
          'CURRENT_USER', 'SESSION_USER', 'TRUE', 'FALSE', *LITERALS.values()]
FORMS = [*WORDS, *(f'the operator {operator}' for operator in OPERATORS), *OTHERS]


def form_of(e):
    """The form of an expression, without those of its parts."""
    if e[0] == 'bin':
        return f'the operator {e[1]}'
    if e[0] == 'lit':
        return str(e[1]).upper() if isinstance(e[1], bool) else LITERALS[e[2]]
    if e[0] == 'isnull':
        return 'IS NOT NULL' if e[2] else 'IS NULL'
    if e[0] == 'col':
        return 'a column' if e[1] is None else "a column with its table's name"
    return {'neg': '- before an operand', 'not': 'NOT', 'member': 'MEMBER OF'}[e[0]] if e[0] != 'user' else e[1].upper() + '_USER'


def forms_in(e):
    yield form_of(e)
    for part in e[1:]:
        if isinstance(part, tuple):
            yield from forms_in(part)


def forms_of(text):
    """The forms that stand in a statement: none, where it is not read."""
    try:
        statement = model.parse(text)
    except model.Refused:
        return set()
    words = ' '.join(re.sub("'(?:[^']|'')*'", "''", text).split()).rstrip('; ')
    found = {form for form, pattern in PATTERNS.items() if pattern.match(words)}
    return found.union(*(forms_in(e) for e in model.expressions(statement)))


def count(lines):
    """In how many statements of a script's lines each form stands, how many there are, and how many of them are not refused."""
    events = [line for line in lines if line and not line.startswith('#')]
    answers = model.run('\n'.join(events))
    statements = [(event.split(': ', 1)[1], answer) for event, answer in zip(events, answers) if not event.startswith(('open ', 'close '))]
    counts = collections.Counter({form: 0 for form in FORMS})
    for text, _ in statements:
        counts.update(forms_of(text))
    return counts, len(statements), sum(not answer.startswith('refused') for _, answer in statements)


def main(path):
    with open(path, encoding='utf-8', newline='') as file:
        counts, statements, carried_out = count(file.read().split('\n'))
    for form, number in sorted(counts.items(), key=lambda pair: pair[1]):
        print(f'{number:5} {form}')
    print(f'{statements} statements, {carried_out} not refused')


if __name__ == '__main__':
    sys.setrecursionlimit(100000)
    main(sys.argv[1])
