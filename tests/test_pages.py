#!/usr/bin/env python3
"""Tests of the pages by the program: python3 tests/test_pages.py

The scripts in two columns of README.md and docs/ are run over memory, and the right column is what is printed. What docs/sql.md lists as
left out is asked for, and refused by the code that it names. The program is the one in the environment variable GUARDDB; without it
nothing is tried.
"""
import glob
import os
import re
import unittest

from program import IS_FAKE, TOP, of_program, run

BLOCK = re.compile(r'^```\n(.*?)^```$', re.M | re.S)
# Where a part of a statement stands that docs/sql.md lists, by what it begins with, or by the topic of its table.
BEGINS = tuple('SELECT INSERT UPDATE DELETE CREATE DROP ALTER GRANT SET SHOW BEGIN COMMIT END SAVEPOINT LOCK PREPARE TRUNCATE TABLE VALUES WITH ;'
               .split())
OF_TOPIC = {'Expressions': 'SELECT %s FROM t', 'Queries': 'SELECT x FROM t %s', 'INSERT, UPDATE, DELETE': 'UPDATE t %s'}
PLACES = {'WHERE': 'SELECT x FROM t %s', 'FROM': 'SELECT x %s', 't ': 'SELECT x FROM %s', 'SET (': 'UPDATE t %s', 'SET t': 'UPDATE t %s', '(LIKE': 'CREATE TABLE v %s',
          'BIGINT[]': 'CREATE TABLE v (k BIGINT PRIMARY KEY, a %s)', 'CONSTRAINT': 'CREATE TABLE v (k BIGINT, %s)',
          'pg_roles': 'SELECT k FROM %s', 'information_schema': 'SELECT k FROM %s', 'ctid': 'SELECT %s FROM t', 'DATE': 'SELECT %s'}
# What stands before something in backticks that is no example.
NO_EXAMPLE = ('look for a column ', 'looks for the table ', 'alias of ', 'then ')
# Words in capitals that a table lists without an example, each in a statement.
WORDS = {
    'other types': ('CREATE TABLE v (k BIGINT PRIMARY KEY, a %s)', 'INT SMALLINT SERIAL NUMERIC REAL VARCHAR CHAR DATE TIMESTAMP BYTEA UUID JSON'),
    'other constraints, and names for them': ('CREATE TABLE v (k BIGINT PRIMARY KEY, a BIGINT %s)',
                                              'DEFAULT~1 UNIQUE CHECK~(a~>~1) REFERENCES~t NULL GENERATED~ALWAYS~AS~(1) COLLATE~"C"'),
    'other ways to make a table': ('CREATE %s', 'TEMP~TABLE~v~(k~BIGINT~PRIMARY~KEY) TABLE~v~(k~BIGINT~PRIMARY~KEY)~INHERITS~(t)'),
    'every change of a table but row security': ('ALTER TABLE t %s', 'ADD~a~BIGINT DROP~x ALTER~x~SET~NOT~NULL RENAME~TO~w OWNER~TO~ann'),
    'everything but tables': ('%s', 'CREATE~INDEX~i~ON~t~(x) CREATE~VIEW~v~AS~SELECT~1 CREATE~SCHEMA~s CREATE~DATABASE~d CREATE~SEQUENCE~s '
                              "CREATE~TYPE~y CREATE~FUNCTION~f CREATE~TRIGGER~g CREATE~EXTENSION~e COMMENT~ON~TABLE~t~IS~'a'"),
    'changes of roles and policies': ('ALTER %s', 'ROLE~ann~LOGIN POLICY~p~ON~t~USING~(true) ROLE~ann~RENAME~TO~eve'),
    'other attributes, and memberships in CREATE ROLE': ('CREATE ROLE eve %s', "PASSWORD~'a' CREATEROLE CREATEDB INHERIT VALID~UNTIL~'2030-01-01'"),
    'USER and GROUP': ('%s', 'CREATE~USER~eve DROP~USER~ann'),
    'SET SESSION AUTHORIZATION, SET LOCAL ROLE, settings': ('%s', 'SET~SESSION~AUTHORIZATION~ann SET~LOCAL~ROLE~ann RESET~ALL'),
    'REASSIGN OWNED, DROP OWNED, ALTER DEFAULT PRIVILEGES': ('%s', 'REASSIGN~OWNED~BY~ann~TO~root ALTER~DEFAULT~PRIVILEGES~GRANT~SELECT~ON~TABLES~TO~ann'),
    'SAVEPOINT, RELEASE, ROLLBACK TO': ('%s', 'RELEASE~a ROLLBACK~TO~a'),
    'END, ABORT, AND CHAIN, two-phase commit, LOCK': ('%s', "ABORT PREPARE~TRANSACTION~'a'"),
    'prepared statements, cursors, EXPLAIN, VACUUM, LISTEN, DO, CALL': (
        '%s', "DECLARE~c~CURSOR~FOR~SELECT~1 EXPLAIN~SELECT~1 VACUUM LISTEN~a DO~'a' CALL~f()"),
    'CURRENT_ROLE, CURRENT_DATE, USER and their like': ('SELECT %s FROM t', 'CURRENT_ROLE CURRENT_DATE USER CURRENT_TIMESTAMP'),
}
SETUP = ['open r root', 'r: CREATE ROLE ann', 'r: CREATE TABLE t (k BIGINT PRIMARY KEY, x BIGINT, s BOOLEAN, o TEXT)',
         'r: CREATE TABLE u (k BIGINT PRIMARY KEY)', "r: INSERT INTO t VALUES (1, 5, true, 'a')"]


def read(*parts):
    with open(os.path.join(TOP, *parts), encoding='utf-8') as file:
        return file.read()


def columns(block):
    """The events of a script in two columns, and what they print; None where a block is no such script."""
    lines = block.splitlines()
    if not re.match(r'open \w+ \w+ +ok OPEN', lines[0]):
        return None
    at = lines[0].index('ok OPEN')
    events = [line[:at].rstrip() for line in lines if line[:at].strip()]
    return '\n'.join(events) + '\n', '\n'.join(line[at:] for line in lines) + '\n'


def scripts(*parts):
    return [found for found in map(columns, BLOCK.findall(read(*parts))) if found]


@unittest.skipIf(IS_FAKE, 'GUARDDB names no program')
class Scripts(unittest.TestCase):
    def test_scripts_in_two_columns(self):
        """A tab stands as two blanks in a page."""
        count = 0
        for path in [os.path.join(TOP, 'README.md'), *sorted(glob.glob(os.path.join(TOP, 'docs', '*.md')))]:
            for script, printed in scripts(path):
                with self.subTest(path, script=script[:200]):
                    status, answers, messages = run(given=script)
                    self.assertEqual((status, messages), (0, ''))
                    self.assertEqual(answers.replace('\t', '  '), printed)
                    count += 1
        self.assertLess(7, count)

    def test_the_first_script(self):
        """The one of README.md is the one that its first command runs."""
        script, printed = scripts('README.md')[0]
        self.assertEqual(script, read('crates', 'guarddb', 'stdin'))
        self.assertEqual(printed, read('crates', 'guarddb', 'stdout').replace('\t', '  '))


@unittest.skipIf(IS_FAKE, 'GUARDDB names no program')
class LeftOut(unittest.TestCase):
    def rows(self):
        """The rows of the tables of docs/sql.md, "What is left out": the topic, what is left out, and what is said of it."""
        part = re.search(r'\n## What is left out\n(.*?)\n## ', read('docs', 'sql.md'), re.S)[1]
        for topic, table in re.findall(r'\*\*(.*?)\*\*\n\n(.*?)(?=\n\n)', part, re.S):
            for line in table.splitlines()[2:]:
                what, example = re.split(r'(?<!\\)\|', line)[1:3]
                yield topic, what.strip(), example.replace('\\|', '|').strip()

    def code(self, example, end):
        """The next code that the sentence names behind an example; 42601 where it names none."""
        masked = re.sub('`[^`]*`', lambda found: '_' * len(found[0]), example)
        named = re.search(r'\b\d\w{4}\b', re.split('[.;] ', masked[end:])[0])
        return named[0] if named else '42601'

    def whole(self, topic, text):
        """A statement that has this in it."""
        place = next((place for begin, place in PLACES.items() if text.startswith(begin)), None)
        if place is None and text.startswith(BEGINS):
            return text
        return (place or OF_TOPIC[topic]) % text

    def asked(self):
        """Each statement with what it is answered."""
        for topic, what, example in self.rows():
            for found in re.finditer(r'`([^`]+)`', example):
                if not example[:found.start()].endswith(NO_EXAMPLE):
                    yield self.whole(topic, found[1]), self.code(example, found.end())
            form, words = WORDS.get(what, ('', ''))
            for word in words.split():
                yield form % word.replace('~', ' '), '42703' if 'names of columns' in example else '42601'
        yield '-- a comment', '42601'

    def test_what_is_left_out(self):
        asked = list(self.asked())
        self.assertLess(140, len(asked))
        answers = of_program([*SETUP, *('r: ' + text for text, _ in asked)])[len(SETUP):]
        for (text, code), answer in zip(asked, answers):
            with self.subTest(text):
                self.assertEqual(answer, f'refused {code}')


if __name__ == '__main__':
    unittest.main()
