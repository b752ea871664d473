"""What clients/shell.py says of words that mean something else in other databases, or nothing here."""
import re

import guarddb
from shell_place import warn

# The lines of docs/sql.md, "What is left out", that have words of their own, by topic, each with these words and a few like them.
LEFT_OUT = '''
# Queries
DISTINCT, GROUP BY, HAVING, windows | DISTINCT GROUP HAVING
aggregates, but for `count(*)` as the whole list | SUM AVG MIN MAX
OFFSET, FETCH, LIMIT with anything but a number | OFFSET FETCH
sub-queries, EXISTS, WITH | EXISTS
UNION, INTERSECT, EXCEPT; VALUES and TABLE as queries | UNION INTERSECT EXCEPT
outer joins | OUTER LEFT RIGHT FULL
NATURAL and USING joins, a comma beside JOIN, parentheses in FROM | NATURAL
schemas, aliases of columns, ONLY | ONLY
# Expressions
IN, BETWEEN, LIKE, ILIKE, regular expressions | IN BETWEEN LIKE ILIKE
casts | CAST
CASE, COALESCE, NULLIF, every function | CASE COALESCE NULLIF
CURRENT_ROLE, CURRENT_DATE, USER and their like | CURRENT_ROLE CURRENT_DATE USER
# INSERT, UPDATE, DELETE
DEFAULT | DEFAULT
INSERT of a query, ON CONFLICT, RETURNING | CONFLICT RETURNING
TRUNCATE, MERGE, COPY | TRUNCATE MERGE COPY
# Tables
other types | INT SMALLINT SERIAL NUMERIC REAL VARCHAR CHAR DATE TIMESTAMP BYTEA UUID JSON INTEGER BIGSERIAL DECIMAL DOUBLE FLOAT VARYING TIME JSONB BLOB
other constraints, and names for them | DEFAULT UNIQUE REFERENCES GENERATED COLLATE
other ways to make a table | TEMP INHERITS
every change of a table but row security | ADD RENAME OWNER
IF EXISTS, IF NOT EXISTS, CASCADE and RESTRICT of a DROP, two names in one | IF EXISTS
everything but tables | INDEX VIEW SCHEMA DATABASE SEQUENCE TYPE FUNCTION TRIGGER EXTENSION COMMENT
# Roles, privileges, policies
changes of roles and policies | RENAME
other attributes, and memberships in CREATE ROLE | PASSWORD CREATEROLE CREATEDB INHERIT VALID UNTIL
USER and GROUP | USER GROUP
GRANTED BY, CURRENT_USER as a grantee | GRANTED
SET SESSION AUTHORIZATION, SET LOCAL ROLE, settings | SESSION AUTHORIZATION LOCAL SHOW
REASSIGN OWNED, DROP OWNED, ALTER DEFAULT PRIVILEGES | REASSIGN OWNED DEFAULT
# Blocks, and what else a session does
isolation levels, READ ONLY | READ ONLY
SAVEPOINT, RELEASE, ROLLBACK TO | SAVEPOINT RELEASE
END, ABORT, AND CHAIN, two-phase commit, LOCK | END ABORT CHAIN LOCK
prepared statements, cursors, EXPLAIN, VACUUM, LISTEN, DO, CALL | EXPLAIN VACUUM LISTEN DO CALL
'''
# The topics in which a statement's words are looked up first, by the word that it begins with.
TOPICS = {'SELECT': ('Queries', 'Expressions'), 'INSERT': ('INSERT, UPDATE, DELETE', 'Expressions'),
          'UPDATE': ('INSERT, UPDATE, DELETE', 'Expressions'), 'DELETE': ('INSERT, UPDATE, DELETE', 'Expressions'),
          'CREATE TABLE': ('Tables',), 'ALTER TABLE': ('Tables',), 'DROP TABLE': ('Tables',),
          **{begin: ('Roles, privileges, policies',) for begin in (
              'CREATE ROLE', 'CREATE USER', 'CREATE GROUP', 'DROP USER', 'DROP GROUP', 'ALTER ROLE', 'ALTER USER', 'ALTER POLICY',
              'ALTER DEFAULT', 'GRANT', 'REVOKE', 'SET', 'RESET')}}
WORD = re.compile(rf'{guarddb.QUOTED}|([^\W\d][\w$]*)')
MOST = 3        # lines for one statement


def topics():
    """The topics, each with its lines: a text, and the words that it is about."""
    found = {}
    for line in LEFT_OUT.strip().split('\n'):
        if line.startswith('# '):
            lines = found.setdefault(line[2:], [])
        else:
            text, _, words = line.rpartition(' | ')
            lines.append((text, words.split()))
    return found


def left_out(statement):
    """The lines of what is left out that a statement's words name, in the order of the words. A word in several is looked up in the
    topics of the statement first."""
    words = [found[1].upper() for found in WORD.finditer(statement) if found[1]]
    first = TOPICS.get(' '.join(words[:2])) or TOPICS.get(' '.join(words[:1]), ())
    by_topic = topics()
    lines = [line for topic in (*first, *by_topic) for line in by_topic[topic]]
    named = [next((text for text, about in lines if word in about), None) for word in words]
    return [*dict.fromkeys(filter(None, named))][:MOST]


def told(statement):
    """These lines as the shell prints them, each with a newline before it."""
    return ''.join(f'\nLEFT OUT:  {line}' for line in left_out(statement))


def warn_of_aliases(statement):
    """Warns of each word that the server took for an alias."""
    for text in guarddb.taken_for_aliases(statement):
        warn(f'WARNING:  {text}')
