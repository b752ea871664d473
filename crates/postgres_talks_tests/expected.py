"""What the program of postgres_talks_tests writes, computed a second time, from PostgreSQL's manual (chapter 55): `python3 expected.py > stdout`."""
import struct


def message(kind, body=b''):
    return kind + struct.pack('>I', 4 + len(body)) + body


def text(words):
    return words.encode() + b'\0'


def query(words):
    return message(b'Q', text(words))


def parse(name, words, types=()):
    return message(b'P', text(name) + text(words) + struct.pack(f'>H{len(types)}I', len(types), *types))


def bind(portal, name, formats=()):
    return message(b'B', text(portal) + text(name) + b'\0\0\0\0' + struct.pack(f'>H{len(formats)}H', len(formats), *formats))


def bind_value(portal, name, value):
    return message(b'B', text(portal) + text(name) + b'\0\0\0\1' + struct.pack('>I', len(value)) + value + b'\0\0')


def execute(portal, most=0):
    return message(b'E', text(portal) + struct.pack('>I', most))


def report(kind, severity, code, words, place=None):
    return message(kind, b'S' + text(severity) + b'V' + text(severity) + b'C' + text(code) + b'M' + text(words) + (b'P' + text(str(place)) if place else b'') + b'\0')


def error(code, words, place=None):
    return report(b'E', 'ERROR', code, words, place)


def fatal(code, words):
    return report(b'E', 'FATAL', code, words)


def ready(byte):
    return message(b'Z', byte)


def complete(words):
    return message(b'C', text(words))


def columns(*heads, code=0):
    return message(b'T', struct.pack('>H', len(heads)) + b''.join(
        text(name) + struct.pack('>IHIHIH', 0, 0, number, size, 0xFFFFFFFF, code) for name, number, size in heads))


def row(*values):
    return message(b'D', struct.pack('>H', len(values)) + b''.join(
        b'\xff\xff\xff\xff' if value is None else struct.pack('>I', len(value)) + value for value in values))


def describe(kind, name):
    return message(b'D', kind + text(name))


SYNC, LEAVE = message(b'S'), message(b'X')
IDLE, OPEN, FAILED = ready(b'I'), ready(b'T'), ready(b'E')
BROKEN = fatal('08P01', 'protocol violation')
HEADS = ('number', 20, 8), ('word', 25, 0xFFFF), ('truth', 16, 1), ('?column?', 20, 8)
FOUR = columns(*HEADS)
ONE_ROW = FOUR + row(b'-12', b"a'b", b't', None) + complete('SELECT 1')
GREETING = (b'N' + message(b'R', b'\0\0\0\0') + b''.join(message(b'S', text(name) + text(value)) for name, value in (
    ('client_encoding', 'UTF8'), ('DateStyle', 'ISO, MDY'), ('integer_datetimes', 'on'), ('server_encoding', 'UTF8'),
    ('server_version', '15.0 (Guarddb)'), ('standard_conforming_strings', 'on'), ('TimeZone', 'UTC')))
    + message(b'K', struct.pack('>II', 7, 0)) + IDLE)
ABORTED = error('25P02', 'current transaction is aborted, commands ignored until end of transaction block')
INSIDE = error('25001', 'DISCARD ALL cannot run inside a transaction block')
READS = error('25006', 'cannot execute statement in a read-only transaction')
ACTIVE = report(b'N', 'WARNING', '25001', 'there is already a transaction in progress')
CATALOGUE = error('0A000', 'catalogues are not supported')
NO_BLOCK = report(b'N', 'WARNING', '25P01', 'there is no transaction in progress')
NONE, NO_DATA = message(b't', b'\0\0'), message(b'n')
OTHER = error('0A000', 'cached plan must not change result type')
PARSED, BOUND, CLOSED, SUSPENDED = message(b'1'), message(b'2'), message(b'3'), message(b's')
LABELLED = 'SELECT a AS "N", b, c AS user, d FROM t'
LABELS = columns(('N', 20, 8), HEADS[1], ('user', 16, 1), HEADS[3])
PARAMETER = 'SELECT a AS "$2", b, c AS user, d FROM t WHERE w = $1'
PARAMETER_LABELS = columns(('$2', 20, 8), HEADS[1], ('user', 16, 1), HEADS[3])
VERSION = row(b'PostgreSQL 15.0 (Guarddb)') + complete('SELECT 1')
INSERT, UPDATE = 'INSERT INTO t VALUES (1)', 'UPDATE t SET x = 1'
ROWS = [row(str(number).encode()) for number in range(1, 6)]

# what a client sends behind the start, and what it is told
PLAYED = [
    (query('SELECT 1') + LEAVE, ONE_ROW + IDLE),
    (query(f'{INSERT}; ;{UPDATE}; WRONG') + query(';'),
     complete('INSERT 0 2') + complete('UPDATE 3') + error('42601', 'syntax error', len(f'{INSERT}; ;{UPDATE}; W')) + IDLE + message(b'I') + IDLE),
    (query('BEGIN; DROP TABLE memory; DROP TABLE foo') + query('COMMIT') + query('COMMIT'),
     complete('BEGIN') + error('53200', 'out of memory') + FAILED + complete('ROLLBACK') + IDLE + NO_BLOCK + complete('COMMIT') + IDLE),
    (query(f'{INSERT}; COMMIT; {INSERT}') + b'?',
     complete('INSERT 0 2') + NO_BLOCK + complete('COMMIT') + complete('INSERT 0 2') + IDLE + BROKEN),
    (query('BEGIN') + query('select pg_catalog.version()') + query('SELECT x FROM t LEFT JOIN u ON a') + query('show datestyle') + query('end'),
     complete('BEGIN') + OPEN + columns(('version', 25, 0xFFFF)) + row(b'PostgreSQL 15.0 (Guarddb)') + complete('SELECT 1') + OPEN
     + error('0A000', 'word that PostgreSQL reserves is not supported') + FAILED + ABORTED + FAILED + complete('ROLLBACK') + IDLE),
    (query('BEGIN') + query('SELECT NULL::pg_catalog.text') + query('SELECT a FROM pg_catalog.pg_class') + query('COMMIT'),
     complete('BEGIN') + OPEN + CATALOGUE + OPEN + CATALOGUE + OPEN + complete('COMMIT') + IDLE),
    (parse('a', INSERT) + bind('', 'a') + execute('') + parse('', UPDATE) + bind('', '') + execute('') + SYNC,
     PARSED + BOUND + complete('INSERT 0 2') + PARSED + BOUND + complete('UPDATE 3') + IDLE),
    (parse('a', INSERT) + bind('', 'a') + execute('') + parse('', 'WRONG') + bind('', '') + execute('') + parse('b', INSERT)
     + query('SELECT 1') + SYNC + query('SELECT 1'),
     PARSED + BOUND + complete('INSERT 0 2') + PARSED + BOUND + error('42601', 'syntax error', 1) + IDLE + ONE_ROW + IDLE),
    (parse('a', 'BEGIN') + bind('', 'a') + execute('') + SYNC + bind('', 'a') + execute('x') + SYNC + message(b'C', b'Sa\0') + bind('', 'a') + SYNC,
     PARSED + BOUND + complete('BEGIN') + OPEN + BOUND + error('34000', 'portal does not exist') + FAILED
     + CLOSED + error('26000', 'prepared statement does not exist') + FAILED),
    (query('DROP TABLE device'), fatal('58030', 'device failed, and the server has stopped')),
    (message(b'D', b'S\0') + SYNC, error('26000', 'prepared statement does not exist') + IDLE),
    (query(''), message(b'I') + IDLE),
    (query('SELECT 0') + query('BEGIN; SELECT 2') + query('SELECT 1') + query('COMMIT'),
     FOUR + complete('SELECT 0') + IDLE + complete('BEGIN') + OTHER + FAILED
     + ABORTED + FAILED + complete('ROLLBACK') + IDLE),
    (parse('a', 'SELECT 1') + describe(b'S', 'a') + bind('p', 'a') + describe(b'P', 'p') + execute('p') + SYNC + bind('', 'a') + execute('') + SYNC,
     PARSED + NONE + FOUR + BOUND + FOUR + ONE_ROW[len(FOUR):] + IDLE + BOUND + ONE_ROW[len(FOUR):] + IDLE),
    (parse('', 'SELECT 2') + describe(b'S', '') + bind('', '') + execute('') + SYNC, PARSED + NONE + columns(('number', 20, 8)) + BOUND + OTHER + IDLE),
    (parse('a', INSERT) + describe(b'S', 'a') + bind('', 'a') + describe(b'P', '') + parse('b', 'show timezone') + describe(b'S', 'b')
     + parse('c', 'WRONG') + describe(b'S', 'c') + SYNC + parse('d', 'SELECT 3') + describe(b'S', 'd') + SYNC + describe(b'P', '') + SYNC,
     PARSED + NONE + NO_DATA + BOUND + NO_DATA + PARSED + NONE + columns(('TimeZone', 25, 0xFFFF)) + PARSED + error('42601', 'syntax error', 1) + IDLE
     + PARSED + error('42601', 'syntax error') + IDLE + error('34000', 'portal does not exist') + IDLE),
    (parse('a', 'SELECT 1') + bind('p', 'a', [1]) + describe(b'P', 'p') + execute('p') + bind('q', 'a', [0, 0, 1, 0]) + execute('q') + SYNC
     + bind('', 'a', [0, 1]) + execute('') + SYNC + bind('', 'a', [2]) + SYNC,
     PARSED + BOUND + columns(*HEADS, code=1) + row(struct.pack('>q', -12), b"a'b", b'\1', None) + complete('SELECT 1')
     + BOUND + row(b'-12', b"a'b", b'\1', None) + complete('SELECT 1') + IDLE
     + BOUND + error('08P01', 'number of format codes is another') + IDLE + error('22023', 'format code is not supported') + IDLE),
    (parse('a', 'INSERT $1') + describe(b'S', 'a') + bind_value('', 'a', b'-5') + execute('') + bind_value('', 'a', b"'; --") + execute('') + SYNC
     + parse('', 'SELECT 1') + bind('', '') + execute('', 1) + execute('') + SYNC,
     PARSED + message(b't', struct.pack('>HI', 1, 20)) + NO_DATA + BOUND + complete('INSERT 0 1') + error('22P02', 'invalid input syntax for the type of a parameter') + IDLE
     + PARSED + BOUND + ONE_ROW[len(FOUR):-len(complete('SELECT 1'))] + message(b's') + complete('SELECT 0') + IDLE),
    (query('BEGIN') + parse('a', 'SELECT 5') + bind('p', 'a') + execute('p', 2) + SYNC + execute('p', 2) + SYNC
     + bind('q', 'a') + execute('q', 4) + execute('p', 2) + execute('q') + execute('p') + SYNC + query('COMMIT'),
     complete('BEGIN') + OPEN + PARSED + BOUND + ROWS[0] + ROWS[1] + SUSPENDED + OPEN + ROWS[2] + ROWS[3] + SUSPENDED + OPEN
     + BOUND + b''.join(ROWS[:4]) + SUSPENDED + ROWS[4] + complete('SELECT 1') + ROWS[4] + complete('SELECT 1')
     + error('34000', 'portal does not exist') + FAILED + complete('ROLLBACK') + IDLE),
    (query('BEGIN') + parse('a', 'SELECT 5') + bind('p', 'a') + execute('p', 2) + SYNC + query('ROLLBACK') + query('BEGIN') + execute('p', 2) + SYNC,
     complete('BEGIN') + OPEN + PARSED + BOUND + ROWS[0] + ROWS[1] + SUSPENDED + OPEN + complete('ROLLBACK') + IDLE + complete('BEGIN') + OPEN
     + error('34000', 'portal does not exist') + FAILED),
    (parse('a', INSERT) + SYNC + query('Discard  ALL') + bind('', 'a') + SYNC + parse('a', 'DISCARD ALL') + bind('', 'a') + execute('') + bind('', 'a') + SYNC
     + query('BEGIN') + query('DISCARD ALL') + query(f'{INSERT}; DISCARD ALL') + query('ROLLBACK') + query(f'{INSERT}; DISCARD ALL'),
     PARSED + IDLE + complete('DISCARD ALL') + IDLE + error('26000', 'prepared statement does not exist') + IDLE
     + PARSED + BOUND + complete('DISCARD ALL') + error('26000', 'prepared statement does not exist') + IDLE
     + complete('BEGIN') + OPEN + INSIDE + FAILED + ABORTED + FAILED + complete('ROLLBACK') + IDLE + complete('INSERT 0 2') + INSIDE + IDLE),
    (query('begin read only') + query('SELECT 1; show datestyle; BEGIN') + query(INSERT) + query('COMMIT') + query(INSERT)
     + parse('', 'START TRANSACTION READ ONLY') + bind('', '') + execute('') + parse('', 'SELECT 1') + bind('', '') + execute('') + parse('', UPDATE) + bind('', '') + execute('')
     + SYNC + query('COMMIT') + query('BEGIN') + query(UPDATE),
     complete('BEGIN') + OPEN + ONE_ROW + columns(('DateStyle', 25, 0xFFFF)) + row(b'ISO, MDY') + complete('SHOW') + ACTIVE + complete('BEGIN') + OPEN
     + READS + FAILED + complete('ROLLBACK') + IDLE + complete('INSERT 0 2') + IDLE
     + PARSED + BOUND + complete('BEGIN') + PARSED + BOUND + ONE_ROW[len(FOUR):] + PARSED + BOUND + READS + FAILED
     + complete('ROLLBACK') + IDLE + complete('BEGIN') + OPEN + complete('UPDATE 3') + OPEN),
    (query(LABELLED) + query(f'SELECT 1 AS x; {LABELLED}') + query('SELECT 1') + query('SELECT -k AS k FROM t ORDER BY k'),
     LABELS + ONE_ROW[len(FOUR):] + IDLE + columns(('x', 20, 8), *HEADS[1:]) + ONE_ROW[len(FOUR):] + LABELS + ONE_ROW[len(FOUR):] + IDLE
     + ONE_ROW + IDLE + error('42601', 'syntax error', len('SELECT -k A')) + IDLE),
    (parse('a', LABELLED) + describe(b'S', 'a') + bind('p', 'a') + describe(b'P', 'p') + execute('p') + bind('', 'a') + execute('') + SYNC
     + parse('', 'SELECT 1') + describe(b'S', '') + SYNC,
     PARSED + NONE + LABELS + BOUND + LABELS + ONE_ROW[len(FOUR):] + BOUND + ONE_ROW[len(FOUR):] + IDLE + PARSED + NONE + FOUR + IDLE),
    (parse('a', PARAMETER) + describe(b'S', 'a') + bind_value('p', 'a', b"'; AS z --") + describe(b'P', 'p') + execute('p') + bind_value('', 'a', b"'; AS z --") + execute('') + SYNC,
     PARSED + message(b't', struct.pack('>HI', 1, 25)) + PARAMETER_LABELS + BOUND + PARAMETER_LABELS + ONE_ROW[len(FOUR):] + BOUND + ONE_ROW[len(FOUR):] + IDLE),
    (query('SELECT version() AS v') + parse('a', 'select current_schema() as "S"') + describe(b'S', 'a') + bind('p', 'a') + describe(b'P', 'p') + execute('p') + SYNC
     + query('SELECT version()'),
     columns(('v', 25, 0xFFFF)) + VERSION + IDLE + PARSED + NONE + columns(('S', 25, 0xFFFF)) + BOUND + columns(('S', 25, 0xFFFF)) + row(b'public') + complete('SELECT 1')
     + IDLE + columns(('version', 25, 0xFFFF)) + VERSION + IDLE),
    (parse('', 'INSERT $2') + SYNC + parse('a', 'INSERT $2', [20]) + describe(b'S', 'a') + SYNC + parse('', 'UPDATE $2') + SYNC,
     error('42P18', 'could not determine data type of parameter') + IDLE + PARSED + message(b't', struct.pack('>HII', 2, 20, 20)) + NO_DATA + IDLE
     + error('42601', 'syntax error') + IDLE),
]

for sent, told in PLAYED:
    print((GREETING + told).hex())
    print(f'{len(sent)} of {len(sent)}')
