"""The smallest pairs of scripts in which a tenant is told something of what it cannot see otherwise: for tests/tenants.py.

They are the lines of the table in docs/reliability.md, "How much hidden rows can tell": root makes the table t, grants bob something on it,
and puts rows into it; bob's one request is answered otherwise in each of the two worlds.
"""
SECURED = ['r: ALTER TABLE t ENABLE ROW LEVEL SECURITY']
OF_OWNERS = ['r: CREATE TABLE t (k BIGINT PRIMARY KEY, o TEXT)', 'r: GRANT ALL ON t TO PUBLIC', *SECURED, 'r: CREATE POLICY p ON t USING (o = current_user)']
OF_KEYS = 'r: CREATE TABLE t (k BIGINT PRIMARY KEY)'
WRITES = ['open c cid', 'c: BEGIN', "c: INSERT INTO t VALUES (7, 'cid')"]


def inserted(*rows):
    return ['r: INSERT INTO t VALUES ' + row for row in rows]


# What tells; what root does in both worlds; what stands in each of them; what bob asks; and the answers.
TELLING = [
    ('a taken key', OF_OWNERS, inserted("(3, 'cid')"), inserted("(7, 'cid')"), "INSERT INTO t VALUES (3, 'bob')", 'refused 23505', 'ok INSERT 1'),
    ('the lock of a writer', OF_OWNERS, WRITES, [], "INSERT INTO t VALUES (1, 'bob')", 'refused 55P03', 'ok INSERT 1'),
    ('a count without a column', [*OF_OWNERS, 'r: CREATE POLICY q ON t FOR UPDATE USING (true)'], inserted("(3, 'cid')"), inserted("(3, 'cid')", "(4, 'cid')"),
     "UPDATE t SET o = 'x'", 'ok UPDATE 1', 'ok UPDATE 2'),
    ('a policy that fails', ['r: CREATE TABLE t (k BIGINT PRIMARY KEY, x BIGINT)', 'r: GRANT ALL ON t TO bob', *SECURED, 'r: CREATE POLICY p ON t USING (1 / x = 2)'],
     inserted('(1, 0)'), inserted('(1, 1)'), 'SELECT k FROM t', 'refused 22012', 'rows 0'),
    ('a column of the key', ['r: CREATE TABLE t (k BIGINT PRIMARY KEY, x TEXT)', 'r: GRANT SELECT (x) ON t TO bob'], inserted("(1, 'a'), (2, 'b')"), inserted("(2, 'a'), (1, 'b')"),
     'SELECT x FROM t', 'rows 2\na\nb', 'rows 2\nb\na'),
    ('a column that a policy names', ['r: CREATE TABLE t (k BIGINT PRIMARY KEY, x BIGINT)', 'r: GRANT SELECT (k) ON t TO bob', *SECURED, 'r: CREATE POLICY p ON t USING (x = 1)'],
     inserted('(1, 1)'), inserted('(1, 2)'), 'SELECT k FROM t', 'rows 1\n1', 'rows 0'),
    ('the size of a column', ['r: CREATE TABLE t (k BIGINT PRIMARY KEY, x TEXT, y TEXT)', 'r: GRANT UPDATE (y) ON t TO bob'], inserted("(1, '%s', '')" % ('x' * 1000)), inserted("(1, 'x', '')"),
     "UPDATE t SET y = '%s'" % ('y' * 300), 'refused 54000', 'ok UPDATE 1'),
    ('DELETE alone', [OF_KEYS, 'r: GRANT DELETE ON t TO bob'], inserted('(1)'), inserted('(1), (2)'), 'DELETE FROM t', 'ok DELETE 1', 'ok DELETE 2'),
    ('UPDATE alone', [OF_KEYS, 'r: GRANT UPDATE ON t TO bob'], inserted('(1)'), inserted('(1), (2)'), 'UPDATE t SET k = 5', 'ok UPDATE 1', 'refused 23505'),
    ('INSERT alone', ['r: CREATE TABLE t (k BIGINT PRIMARY KEY, o TEXT)', 'r: GRANT INSERT ON t TO bob'], inserted("(3, '')"), inserted("(7, '')"),
     "INSERT INTO t VALUES (3, '')", 'refused 23505', 'ok INSERT 1'),
]


def differences(*answered):
    """What is answered otherwise than it is written here, by any of these functions of the lines of a script."""
    for what, defined, one, other, text, *answers in TELLING:
        for rows, right in zip((one, other), answers):
            lines = ['open r root', 'r: CREATE ROLE bob LOGIN', 'r: CREATE ROLE cid LOGIN', *defined, *rows, 'open b bob', 'b: ' + text]
            yield from ((what, lines, told, right) for told in (answers_to(lines)[-1] for answers_to in answered) if told != right)
