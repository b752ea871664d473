#!/usr/bin/env python3
"""Tests of clients/guarddb_syntax.py: python3 tests/test_syntax.py

Where a statement goes wrong is what crates/statement_tests says of its broken texts, which the parser of the program and
scripts/model.py answer alike, and what the model says of more of them.
"""
import os
import random
import re
import sys
import unittest

TOP = os.path.dirname(os.path.dirname(os.path.abspath(__file__)))
TEXTS = os.path.join(TOP, 'crates', 'statement_tests')
sys.path[:0] = [os.path.join(TOP, 'clients'), TEXTS]
import guarddb_syntax       # noqa: E402
import make_places          # noqa: E402
import model                # noqa: E402
import places               # noqa: E402
from guarddb_syntax import error_place, pointed     # noqa: E402

SEED, RANDOM_TEXTS = 20261129, 500
# Statements, each with what is printed below its line: the mark's column in the statement, and what is expected there.
MARKED = [
    ('SELECT k FROM', 13, 'a name'), ('SELECT k FROM t WHERE k IN (1)', 24, None), ('DROP t', 5, 'TABLE, POLICY or ROLE'),
    ('CREATE TABLE t (k INT PRIMARY KEY)', 18, 'BIGINT, TEXT, BOOLEAN or BOOL'), ('INSERT t VALUES (1)', 7, 'INTO'),
    ('UPDATE t k = 1', 9, 'SET'), ('SELECT 1 SELECT 2', 9, None), ('SELECT 1; SELECT 2', 10, 'the end of the statement'),
    ('COMIT', 0, None), ("SELECT 'one", 7, None), ('SELECT k FROM t LIMIT', 21, 'a number'), ('SELECT k FROM t LIMIT -1', 22, 'a number'),
    ('SELECT k FROM t LEFT OUTER JOIN u ON true', 21, None), ('DROP TABLE IF EXISTS t', 14, 'the end of the statement'),
    ('CREATE TABLE u (user TEXT, table TEXT)', 27, 'a name or PRIMARY'), ('GRANT SELECT ON t', 17, 'TO'), ('SET ROLE', 8, 'NONE or a name'),
    ('SELECT k FROM t ORDER BY 1', 26, None), ('SELECT count(k) FROM t', 13, '"*"'), ('SELECT "a" "b" FROM t', 11, None),
    ('SELECT 1 = 2 = 3', 13, None), ('SELECT 5 - 9223372036854775808 x', 11, None), ('', 0, None), (';', 0, None),
]
# Statements of the grammar, each with the rule of form that it breaks.
FORMED = [
    ('CREATE TABLE t (k BIGINT)', 'A table has one primary key'), ('create role ann login nologin', 'No attribute of a role'),
    ('INSERT INTO t VALUES (1), (1, 2)', 'The rows of VALUES'), ('SELECT *', r'\* and count\(\*\) need FROM'),
    ('GRANT DELETE (k) ON t TO ann', 'GRANT and REVOKE name no columns'), ('REVOKE DELETE (k) ON t FROM ann;', 'GRANT and REVOKE name no columns'),
    ('CREATE POLICY p ON t', 'A policy for INSERT'),
]


def broken_texts():
    """The lines of the part `places` of statement_tests, each with its answer."""
    def lines(name):
        with open(os.path.join(TEXTS, name), encoding='utf-8') as file:
            return file.read().split('\n')
    given, told = lines('stdin'), lines('stdout')
    first = given.index('part places') + 1
    return list(zip(given[first:], told[told.index(given[first]):]))


def place_in_bytes(text):
    """The place as the program counts it: a statement that breaks a rule of form alone goes wrong at its end."""
    place = error_place(text)
    return len(text[:place].encode())


def is_refused(text):
    try:
        model.parse(text)
    except model.Refused:
        return True
    return False


class Places(unittest.TestCase):
    def test_the_broken_texts_of_the_program(self):
        lines = [(line, answer) for line, answer in broken_texts() if answer.isdigit()]
        self.assertGreater(len(lines), 1100)
        for line, answer in lines:
            text = places.written_out(line)
            self.assertEqual((text, place_in_bytes(text)), (text, int(answer)))

    def test_random_texts(self):
        chance = random.Random(SEED)
        known = [words for words in map(make_places.words_of, make_places.statements()) if words]
        for _ in range(RANDOM_TEXTS):
            line = make_places.joined(chance, make_places.broken(chance, chance.choice(known), chance.choice(known)))
            text, answer = places.written_out(line), places.answer(line)
            if answer != 'none':
                self.assertEqual((text, place_in_bytes(text)), (text, int(answer)))
            elif not is_refused(text):
                self.assertEqual((text, error_place(text)), (text, None))

    def test_whole_statements(self):
        for text in make_places.statements():
            if not is_refused(text):
                self.assertEqual((text, error_place(text)), (text, None))

    def test_long_texts(self):
        """The rounds of a loop are followed alike, so that the longest statement takes a second or so."""
        for text in ('SELECT ' + '1+' * 32000, 'SELECT ' + 'NOT ' * 16000, 'SELECT a FROM t ORDER BY ' + 'a,' * 32000 + '1'):
            self.assertEqual(error_place(text), len(text))

    def test_parentheses(self):
        self.assertEqual(error_place('SELECT ' + '(' * 64 + '1' + ')' * 65), 7 + 64 + 1 + 64)


class Told(unittest.TestCase):
    def test_marks(self):
        for statement, column, expected in MARKED:
            with self.subTest(statement):
                lines = [f'LINE 1: {statement}', ' ' * (8 + column) + '^', *([f'EXPECTED:  {expected}'] if expected else [])]
                self.assertEqual(pointed(statement), '\n'.join(lines))

    def test_rules_of_form(self):
        for statement, rule in FORMED:
            with self.subTest(statement):
                self.assertIsNone(error_place(statement))
                self.assertRegex(pointed(statement), rf'\AFORM:  {rule}.*\.\Z')
        self.assertEqual(pointed('COMMIT'), '')

    def test_lines(self):
        """The line of the place is shown, counted from the first that is not blank, without the blanks that it begins with."""
        self.assertEqual(pointed('\n \nSELECT k\n  FROM t,\n'), 'LINE 2: FROM t,\n               ^\nEXPECTED:  a name')
        self.assertEqual(pointed('SELECT\n\n  k FRM t'), 'LINE 3: k FRM t\n          ^')
        self.assertEqual(pointed('SELECT\t1 x'), 'LINE 1: SELECT 1 x\n                 ^')

    def test_long_lines_are_cut(self):
        shown = pointed('SELECT ' + 'a, ' * 100 + 'FROM t WHERE ' + 'b ' * 100).split('\n')
        self.assertEqual(shown[1].index('^'), len('LINE 1: ') + guarddb_syntax.BEFORE)
        self.assertEqual(shown[0][shown[1].index('^'):][:6], 'FROM t')
        self.assertEqual(len(shown[0]), len('LINE 1: ') + guarddb_syntax.BESIDE)

    def test_letters_that_take_two_columns(self):
        wide = pointed('SELECT "電話" x', width=lambda text: sum(2 if letter > '\u2e80' else 1 for letter in text))
        self.assertEqual(wide, 'LINE 1: SELECT "電話" x\n' + ' ' * 22 + '^')


class Pages(unittest.TestCase):
    def setUp(self):
        with open(os.path.join(TOP, 'docs', 'sql.md'), encoding='utf-8') as file:
            self.page = file.read()

    def test_reserved_words_are_those_of_the_page(self):
        words = re.search(r'reserved\*\*.*?:\n\n((?:  [A-Z_ ]+\n)+)', self.page, re.S)[1].split()
        self.assertEqual(guarddb_syntax.RESERVED, {*words})

    def test_rules_of_form_are_those_of_the_page(self):
        rules = re.search(r'rules of form is 42601:\n\n(.*?)\n\n', self.page, re.S)[1].replace('`', '').replace('\n  ', ' ')
        for rule in guarddb_syntax.FORMS.values():
            if not rule.startswith('The rows of VALUES'):       # of which "Rows" has the rest
                self.assertIn(f'- {rule}', rules)
        self.assertIn('- The rows of VALUES have one length.', rules)


if __name__ == '__main__':
    unittest.main()
