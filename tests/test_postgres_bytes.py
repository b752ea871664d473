#!/usr/bin/env python3
"""Tests of what PostgreSQL's protocol is answered by, byte by byte: python3 tests/test_postgres_bytes.py [TESTS]

The program is the one in the environment variable GUARDDB. What is expected is what chapter 55 of PostgreSQL's manual says of the flow of
messages, and what docs/postgres.md says is not there. MESSAGES in the environment is how many messages at random are sent.
"""
import os
import random
import socket
import struct
import time
import unittest

from postgres_client import (CANCEL_REQUEST, FLUSH, GSS_REQUEST, LEAVE, SSL_REQUEST, SYNC, AtServer, Client, bind, close, codes, describe, execute, fields, kinds,
                             packet, parse, query, start_packet)
from program import PATIENCE, free_port

MESSAGES = int(os.environ.get('MESSAGES', '1000'))
SEED = int(os.environ.get('SEED', '1'))
SERVERS = b'RSZTDCEIN123KntsAGHWV'      # the kinds of a server's messages
MOST = 131072                           # the greatest length that a message may name
ROOM = 64 << 20                         # bytes that a server may take more than before


def memory_of(process):
    """The bytes of memory that a process has, and the most that it had."""
    with open(f'/proc/{process}/status', encoding='ascii') as file:
        told = dict(line.split(':', 1) for line in file)
    return tuple(int(told[name].split()[0]) << 10 for name in ('VmRSS', 'VmHWM'))


def positions(messages):
    """Where the errors among them stand, or None."""
    return [fields(body).get('P') for kind, body in messages if kind == b'E']


def column_names(body):
    """The names of the columns of a RowDescription: behind each stand 18 bytes (55.7)."""
    names, rest = [], body[2:]
    while rest:
        name, _, rest = rest.partition(b'\0')
        names.append(name.decode())
        rest = rest[18:]
    return names


class Conversations(AtServer):
    def test_two_at_once(self):
        with self.served('--clients', 2), Client(self.socket, 'root') as first, Client(self.socket, 'bob') as second:
            self.assertEqual(kinds(first.ask('BEGIN')), b'CZ')
            self.assertEqual(first.ask("INSERT INTO t VALUES (9, 'nine')"), [(b'C', b'INSERT 0 1\0'), (b'Z', b'T')])
            self.assertEqual(second.ask('SELECT COUNT(*) FROM t')[1:], [(b'D', b'\0\1\0\0\0\x012'), (b'C', b'SELECT 1\0'), (b'Z', b'I')])
            self.assertEqual(first.ask('COMMIT'), [(b'C', b'COMMIT\0'), (b'Z', b'I')])
            self.assertEqual(second.ask('SELECT COUNT(*) FROM t')[1], (b'D', b'\0\1\0\0\0\x013'))

    def test_beyond_as_many_as_may_be(self):
        for port in (None, free_port()):
            with self.subTest(port), self.served('--clients', 1, port=port), Client(port or self.socket, 'root') as first:
                with Client(port or self.socket) as second:
                    kind, body = second.message()
                    told = fields(body)
                    self.assertEqual((kind, told['S'], told['V'], told['C'], told['M']), (b'E', 'FATAL', 'FATAL', '53300', 'sorry, too many clients already'))
                    self.assertIsNone(second.message())
                self.assertEqual(kinds(first.ask('SELECT 1')), b'TDCZ')

    def test_no_encryption(self):
        with self.served('--clients', 1), Client(self.socket) as client:
            for request in (GSS_REQUEST, SSL_REQUEST):
                client.send(request)
                self.assertEqual(client.came.read(1), b'N')
            client.send(start_packet('root', 'database', 'x', 'application_name', 'y', 'client_encoding', 'LATIN1'))
            told = client.until(b'Z')
            self.assertEqual(told[0], (b'R', b'\0\0\0\0'))
            self.assertIn((b'S', b'client_encoding\0UTF8\0'), told)

    def test_starts_that_are_none(self):
        """Each is told why, where it can be, and is closed."""
        other = packet(b'', struct.pack('>I', 2 << 16) + b'user\0root\0\0')
        for start, code in [(other, '0A000'), (packet(b'', struct.pack('>I', 3 << 16) + b'\0'), '28000'), (start_packet(''), '28000'), (start_packet('nobody'), '28000'),
                            (packet(b'', struct.pack('>I', 3 << 16) + b'user\0\xff\0\0'), '28000'), (packet(b'', struct.pack('>I', 3 << 16) + b'user'), '08P01'),
                            (b'GET / HTTP/1.1\r\n\r\n', '08P01'), (b'\0\0\0\0', '08P01'), (b'\0\0\0\7', '08P01'), (b'\0\0\x27\x11', '08P01'), (b'\xff' * 64, '08P01')]:
            with self.subTest(start[:32]), self.served('--clients', 1), Client(self.socket) as client:
                client.send(start)
                told = client.rest()
                self.assertEqual((kinds(told), codes(told), fields(told[0][1])['S']), (b'E', [code], 'FATAL'))
        with self.served('--clients', 1), Client(self.socket) as client:
            client.send(CANCEL_REQUEST)
            self.assertEqual(client.rest(), [])

    def test_lengths_that_are_none(self):
        """A message with such a length ends its connection with 08P01, and no other connection."""
        with self.served('--clients', 2), Client(self.socket, 'root') as other:
            for kind in b'QPBDECSHFdcfpX\0\x01Z~':
                for length in (0, 3, MOST + 1, 0x7fffffff, 0xffffffff):
                    with self.subTest(kind=kind, length=length), Client(self.socket, 'root') as client:
                        client.send(bytes([kind]) + struct.pack('>I', length))
                        self.assertEqual(codes(client.rest()), ['08P01'])
            self.assertEqual(kinds(other.ask('SELECT 1')), b'TDCZ')

    def test_messages_of_a_server(self):
        with self.served('--clients', 2), Client(self.socket, 'root') as other:
            for message in [packet(b'R', b'\0\0\0\0'), packet(b'Z', b'I'), packet(b'T', b'\0\0'), packet(b'K', b'\0' * 8), packet(b'1', b''), packet(b'G', b'\0\0\0')]:
                with self.subTest(message), Client(self.socket, 'root') as client:
                    client.send(message)
                    self.assertEqual(codes(client.rest()), ['08P01'])
            self.assertEqual(kinds(other.ask('SELECT 1')), b'TDCZ')


class Blocks(AtServer):
    def test_several_statements_in_one_text(self):
        """They are one block, unless they have one of their own (55.2.2.1)."""
        with self.served('--clients', 1), Client(self.socket, 'root') as client:
            self.assertEqual(kinds(client.ask('SELECT 1; SELECT 2;')), b'TDCTDCZ')
            self.assertEqual(kinds(client.ask('INSERT INTO t VALUES (7, NULL); SELECT 1 / 0; INSERT INTO t VALUES (8, NULL)')), b'CEZ')
            self.assertEqual(kinds(client.ask('SELECT k FROM t WHERE k > 2')), b'TCZ')
            self.assertEqual(client.ask('BEGIN; INSERT INTO t VALUES (7, NULL); COMMIT; SELEC; SELECT 1')[-1], (b'Z', b'I'))
            self.assertEqual(client.ask('SELECT k FROM t WHERE k > 2')[1], (b'D', b'\0\1\0\0\0\x017'))
            self.assertEqual(kinds(client.ask('')), b'IZ')
            self.assertEqual(kinds(client.ask(' ; -- nothing\n;')), b'IZ')

    def test_a_block_that_has_failed(self):
        with self.served('--clients', 1), Client(self.socket, 'root') as client:
            for wrong in ('SELECT 1 / 0', 'SELEC', 'SELECT LEFT FROM t'):
                with self.subTest(wrong):
                    self.assertEqual(client.ask('BEGIN')[-1], (b'Z', b'T'))
                    self.assertEqual(kinds(client.ask('INSERT INTO t VALUES (7, NULL)')), b'CZ')
                    self.assertEqual(client.ask(wrong)[-1], (b'Z', b'E'))
                    told = client.ask('SHOW server_version')
                    self.assertEqual((codes(told), told[-1]), (['25P02'], (b'Z', b'E')))
                    self.assertEqual(client.ask('COMMIT'), [(b'C', b'ROLLBACK\0'), (b'Z', b'I')])
                    self.assertEqual(kinds(client.ask('SELECT k FROM t WHERE k > 2')), b'TCZ')

    def test_where_syntax_goes_wrong(self):
        """The place is told in characters of the client's text, from 1 (55.8). PostgreSQL 15.18 tells the same ones."""
        places = [('SELEC', 1), ('SELEC k FROM t', 1), ('SELECT k FROM t WHRE k', 22), ('SELECT k FROM t WHERE', 22), ('SELECT k, FROM t', 11),
                  ('SELECT k FROM t\n WHERE k = = 1', 28), ('SELECT (1', 10), ('SELECT 1 1', 10), ("SELECT 'é€' + FROM t", 15), ("SELECT 'é€'; SELECT 1 + FROM t", 25),
                  ('SELECT 1; SELEC 2', 11), ('SELECT 1 ; SELECT k FROM t WHERE', 33), ('INSERT INTO t VALUES (7, )', 26), ('INSERT INTO t VALUES (7, NULL', 30),
                  ('DELETE t', 8), ('CREATE TABLE u (k BIGINT PRIMARY KEY', 37), ('SELECT k FROM t ORDER k', 23), ('GRANT SELECT t TO bob', 14),
                  ('SELECT k FROM t WHERE (k = 1', 29), ('DROP t', 6), ('BEGIN; SELEC', 8)]
        with self.served('--clients', 1), Client(self.socket, 'root') as client:
            for text, place in places:
                with self.subTest(text):
                    told = client.ask(text)
                    self.assertEqual((codes(told), positions(told)), (['42601'], [str(place)]))
                    client.ask('ROLLBACK')
            for messages, wanted in [((parse('SELECT k FROM t WHERE', 'a'), describe(b'S', 'a')), ['22']), ((parse("SELECT 'é' 1"), bind(), execute()), ['12'])]:
                told = client.ask(*messages, SYNC)
                self.assertEqual((codes(told), positions(told)), (['42601'], wanted))
            # none is told of a text that is not as it was written, of a long one, and of other errors
            for messages in [('SELECT k AS a FROM t WHERE',), (parse('SELECT k + FROM t WHERE k = $1'), SYNC), ("SELECT 'a", ), ('SELECT ' + '1 + ' * 600 + 'FROM t',)]:
                told = client.ask(*messages)
                self.assertEqual((codes(told), positions(told)), (['42601'], [None]))
            for text in ('SELECT zz FROM t', 'SELECT 1 / 0', 'SELECT left FROM t'):
                self.assertEqual(positions(client.ask(text)), [None])

    def test_a_client_that_leaves_a_block(self):
        """What it did is taken back, and the next one may write."""
        for leave in (b'', LEAVE, b'\0'):
            with self.subTest(leave), self.served('--clients', 2), Client(self.socket, 'root') as other:
                with Client(self.socket, 'root') as client:
                    client.ask('BEGIN')
                    client.ask('INSERT INTO t VALUES (7, NULL)')
                    client.send(leave)
                ended = time.monotonic() + PATIENCE
                while codes(other.ask('DELETE FROM t WHERE k > 2')) == ['55P03'] and time.monotonic() < ended:
                    time.sleep(0.01)
                self.assertEqual(other.ask('DELETE FROM t WHERE k > 2')[0], (b'C', b'DELETE 0\0'))


class Batches(AtServer):
    """The extended query (55.2.3), as far as it is there."""

    def test_a_statement_without_parameters(self):
        with self.served('--clients', 1), Client(self.socket, 'root') as client:
            self.assertEqual(kinds(client.ask(parse('SELECT k FROM t', 'a'), bind(name='a'), execute(), SYNC)), b'12DDCZ')
            self.assertEqual(kinds(client.ask(bind(name='a'), execute(), SYNC)), b'2DDCZ')
            self.assertEqual(kinds(client.ask(close(b'S', 'a'), bind(name='a'), SYNC)), b'3EZ')
            client.send(parse('SELECT 1'), FLUSH)
            self.assertEqual(client.message(), (b'1', b''))
            self.assertEqual(client.ask(SYNC), [(b'Z', b'I')])

    def test_what_is_described(self):
        """A statement has no parameters; what answers rows has columns, and what answers none has no data (55.2.3)."""
        with self.served('--clients', 2), Client(self.socket, 'root') as client, Client(self.socket, 'root') as other:
            named = b''.join(name + struct.pack('>IHIhiH', 0, 0, number, size, -1, 0) for name, number, size in [(b'k\0', 20, 8), (b'?column?\0', 16, 1), (b'x\0', 25, -1)])
            told = client.ask(parse('SELECT k, k = 1, x FROM t', 'a'), describe(b'S', 'a'), bind(name='a'), describe(b'P'), execute(), SYNC)
            self.assertEqual(kinds(told), b'1tT2TDDCZ')
            self.assertEqual([body for kind, body in told if kind in b'tT'], [b'\0\0', b'\0\3' + named, b'\0\3' + named])
            for text, wanted in [('INSERT INTO t VALUES (7, NULL)', b'1tnZ'), ('BEGIN', b'1tnZ'), ('', b'1tnZ'), ('SHOW timezone', b'1tTZ'), ('SET client_encoding = \'UTF8\'', b'1tnZ'),
                                 ('SELECT zz FROM t', b'1EZ'), ('SELECT k FROM pg_catalog.pg_class', b'1EZ')]:
                with self.subTest(text):
                    self.assertEqual(kinds(client.ask(parse(text), describe(b'S'), SYNC)), wanted)
            self.assertEqual(kinds(client.ask('BEGIN')), b'CZ')
            self.assertEqual(kinds(client.ask('SELEC')), b'EZ')
            self.assertEqual(codes(client.ask(describe(b'S', 'a'), SYNC)), ['25P02'])
            self.assertEqual(kinds(client.ask('ROLLBACK')), b'CZ')
            self.assertEqual(kinds(other.ask('DROP TABLE t')), b'CZ')
            self.assertEqual(kinds(other.ask('CREATE TABLE t (k BIGINT PRIMARY KEY, x BIGINT)')), b'CZ')
            self.assertEqual(codes(client.ask(bind(name='a'), execute(), SYNC)), ['0A000'])
            self.assertEqual(kinds(client.ask(describe(b'S', 'a'), bind(name='a'), execute(), SYNC)), b'tT2CZ')

    def test_values_in_binary(self):
        """No format is text, one is for all columns, and there may be one for each (55.2.3)."""
        texts, numbers = (b'1', b'one', b't'), (struct.pack('>q', 1), b'one', b'\1')
        with self.served('--clients', 1), Client(self.socket, 'root') as client:
            for results, values in [((), texts), ((0,), texts), ((1,), numbers), ((0, 0, 1), texts[:2] + numbers[2:]), ((1, 1, 0), numbers[:2] + texts[2:])]:
                row = (b'D', b'\0\3' + b''.join(struct.pack('>I', len(value)) + value for value in values))
                with self.subTest(results):
                    told = client.ask(parse('SELECT k, x, k = 1 FROM t WHERE k = 1'), bind(results=results), describe(b'P'), execute(), SYNC)
                    self.assertEqual((kinds(told), told[3]), (b'12TDCZ', row))
                    self.assertEqual([told[2][1][at:at + 2] for at in (20, 40, 67)], [struct.pack('>H', (results * 3 or (0, 0, 0))[at]) for at in range(3)])
                    self.assertEqual(client.ask(bind(results=results), execute(), SYNC)[1], row)
            self.assertEqual(client.ask(parse('SELECT x FROM t WHERE k = 2'), bind(results=[1]), execute(), SYNC)[2], (b'D', b'\0\1\xff\xff\xff\xff'))
            self.assertEqual(kinds(client.ask(parse('SELECT x FROM t'), bind(results=[0, 1]), describe(b'P'), SYNC)), b'12EZ')
            self.assertEqual(kinds(client.ask(parse('SELECT x FROM t'), describe(b'S'), bind(results=[0, 1]), SYNC)), b'1tTEZ')

    def test_what_is_not_there(self):
        """An error, which says so, and the connection goes on behind Sync."""
        with self.served('--clients', 1), Client(self.socket, 'root') as client:
            for messages, code in [((describe(b'S', 'none'),), '26000'), ((describe(b'P'),), '34000'),
                                   ((parse('SELECT 1'), bind([b'1', None])), '08P01'),
                                   ((parse('SELECT 1'), bind(results=[2])), '22023'), ((parse('SELECT 1'), bind(results=[0, 1]), execute()), '08P01'),
                                   ((parse('SELECT k FROM t'), bind(), execute(most=2), execute(), execute()), '34000'), ((parse('SELECT 1; SELECT 2'),), '42601'), ((bind(name='none'),), '26000'),
                                   ((execute('none'),), '34000'), ((parse('SELECT 1', 'b'), parse('SELECT 2', 'b')), '42P05'), ((parse('SELEC'), bind(), execute()), '42601')]:
                with self.subTest(code, messages=messages):
                    told = client.ask(*messages, parse('SELECT 1'), query('SELECT 1'), SYNC)
                    self.assertEqual((codes(told), told[-2][0], told[-1]), ([code], b'E', (b'Z', b'I')))
                    self.assertEqual(kinds(client.ask('SELECT 1')), b'TDCZ')
            told = client.ask(packet(b'F', b'\0\0\0\1\0\0\0\0\0\0'))        # FunctionCall
            self.assertEqual((codes(told), kinds(told)), (['0A000'], b'EZ'))
            told = client.ask(packet(b'Q', b'SELECT \xff\0'))
            self.assertEqual((codes(told), kinds(told)), (['22021'], b'EZ'))
            client.send(packet(b'd', b'x'), packet(b'c', b''), packet(b'f', b'x\0'))
            self.assertEqual(kinds(client.ask('SELECT 1')), b'TDCZ')

    def test_a_limit_of_rows(self):
        """Those up to the limit come, and then it is told whether there may be others (55.2.3)."""
        with self.served('--clients', 1), Client(self.socket, 'root') as client:
            for most, wanted in [(0, b'12DDCZ'), (1, b'12DsZ'), (2, b'12DDsZ'), (3, b'12DDCZ'), (2 ** 32 - 1, b'12DDCZ'), (2 ** 31 - 1, b'12DDCZ')]:
                with self.subTest(most):
                    self.assertEqual(kinds(client.ask(parse('SELECT k FROM t'), bind(), execute(most=most), SYNC)), wanted)
            self.assertEqual(kinds(client.ask(parse('SHOW timezone'), bind(), execute(most=1), SYNC)), b'12DCZ')
            self.assertEqual(kinds(client.ask(parse('INSERT INTO t VALUES ($1, $2)'), bind([b'3', None]), execute(most=1), SYNC)), b'12CZ')

    def test_the_rest_of_a_portal(self):
        """It is kept up to the end of the block, beside those of other portals, and counted by itself; past 4 MiB it is 54000."""
        with self.served('--clients', 1), Client(self.socket, 'root') as client:
            client.ask('INSERT INTO t VALUES ' + ', '.join(f'({k}, NULL)' for k in range(3, 8)))
            client.ask('BEGIN')
            numbers_of = lambda told: [int(body[6:]) for kind, body in told if kind == b'D']
            told = client.ask(parse('SELECT k FROM t ORDER BY k', 'a'), bind(portal='p', name='a'), bind(portal='q', name='a'), execute('p', 2), SYNC)
            self.assertEqual((kinds(told), numbers_of(told)), (b'122DDsZ', [1, 2]))
            told = client.ask(parse('DELETE FROM t'), bind(), execute(), execute('p', 3), SYNC)         # the answer is that of its beginning
            self.assertEqual((kinds(told), numbers_of(told)), (b'12CDDDsZ', [3, 4, 5]))
            told = client.ask(execute('q', 1), execute('p', 2), describe(b'P', 'p'), execute('p', 2), SYNC)
            self.assertEqual((kinds(told), numbers_of(told), [body for kind, body in told if kind == b'C']), (b'CDDsTCZ', [6, 7], [b'SELECT 0\0'] * 2))
            self.assertEqual(codes(client.ask(execute('p'), SYNC)), ['34000'])
            self.assertEqual(kinds(client.ask('ROLLBACK')), b'CZ')
            for end, code in [('COMMIT', '34000'), ('ROLLBACK', '34000'), ('SELECT 1 / 0', '34000')]:
                with self.subTest(end):
                    client.ask('BEGIN')
                    self.assertEqual(kinds(client.ask(bind(portal='p', name='a'), execute('p', 2), SYNC)), b'2DDsZ')
                    client.ask(end)
                    self.assertEqual(codes(client.ask(execute('p'), SYNC)), [code])
                    client.ask('ROLLBACK')
            self.assertEqual(kinds(client.ask(bind(portal='p', name='a'), execute('p', 2), SYNC)), b'2DDsZ')
            self.assertEqual(codes(client.ask(execute('p'), SYNC)), ['34000'])
            client.ask('BEGIN')
            self.assertEqual(kinds(client.ask(bind(portal='p', name='a'), execute('p', 2), close(b'P', 'p'), bind(portal='p', name='a'), execute('p', 6), SYNC)), b'2DDs32' + b'D' * 6 + b'sZ')
            client.ask('COMMIT')
            client.ask('CREATE TABLE wide (k BIGINT PRIMARY KEY, x TEXT)')
            for first in range(0, 2000, 100):
                client.ask('INSERT INTO wide VALUES ' + ', '.join(f"({k}, '{'x' * 400}')" for k in range(first, first + 100)))
            client.ask('BEGIN')
            wide = 'SELECT w.k, w.x FROM wide w JOIN t ON t.k <= {} ORDER BY w.k'
            self.assertEqual(kinds(client.ask(parse(wide.format(3)), bind(), execute(most=1), SYNC)), b'12DsZ')
            self.assertEqual(codes(client.ask(parse(wide.format(5)), bind(), execute(most=1), SYNC)), ['54000'])

    def test_discard_all(self):
        """What was prepared is forgotten, and the role is that of the login; in a block it is refused, and nothing is forgotten."""
        with self.served('--clients', 1), Client(self.socket, 'root') as client:
            client.ask('SET ROLE bob')
            self.assertEqual(kinds(client.ask(parse('SELECT 1', 'a'), SYNC)), b'1Z')
            client.ask('BEGIN')
            self.assertEqual(codes(client.ask('DISCARD ALL')), ['25001'])
            self.assertEqual(codes(client.ask('DISCARD ALL')), ['25P02'])
            client.ask('ROLLBACK')
            self.assertEqual(kinds(client.ask(bind(name='a'), execute(), SYNC)), b'2DCZ')
            self.assertEqual(client.ask('SELECT current_user')[1], (b'D', b'\0\1\0\0\0\3bob'))
            self.assertEqual(client.ask('discard all')[0], (b'C', b'DISCARD ALL\0'))
            self.assertEqual(client.ask('SELECT current_user')[1], (b'D', b'\0\1\0\0\0\4root'))
            self.assertEqual(codes(client.ask(bind(name='a'), SYNC)), ['26000'])
            self.assertEqual(kinds(client.ask(parse('DISCARD ALL'), describe(b'S'), bind(), execute(), SYNC)), b'1tn2CZ')

    def test_blocks_that_only_read(self):
        with self.served('--clients', 1), Client(self.socket, 'root') as client:
            for begin in 'BEGIN READ ONLY', 'begin transaction read only', 'START TRANSACTION READ ONLY':
                for text in "INSERT INTO t VALUES (9, NULL)", 'UPDATE t SET x = NULL', 'DELETE FROM t', 'CREATE TABLE u (k BIGINT PRIMARY KEY)', 'GRANT SELECT ON t TO bob':
                    with self.subTest(begin, text=text):
                        client.ask(begin)
                        self.assertEqual(kinds(client.ask('SELECT k FROM t; SHOW timezone; SET ROLE bob; RESET ROLE')), b'TDDCTDCCCZ')
                        self.assertEqual(codes(client.ask(text)), ['25006'])
                        self.assertEqual(codes(client.ask('SELECT 1')), ['25P02'])
                        client.ask('ROLLBACK')
            client.ask('BEGIN READ ONLY')
            client.ask('COMMIT')
            self.assertEqual(kinds(client.ask('DELETE FROM t')), b'CZ')
            self.assertEqual(kinds(client.ask(parse('BEGIN READ ONLY'), bind(), execute(), parse('DELETE FROM t WHERE k = $1'), bind([b'1']), execute(), SYNC)), b'12C12EZ')

    def test_a_batch_is_one_transaction(self):
        with self.served('--clients', 1), Client(self.socket, 'root') as client:
            write = [parse('INSERT INTO t VALUES (7, NULL)'), bind(), execute()]
            self.assertEqual(kinds(client.ask(*write, parse('SELECT 1 / 0'), bind(), execute(), parse('SELECT 2'), SYNC)), b'12C12EZ')
            self.assertEqual(kinds(client.ask('SELECT k FROM t WHERE k > 2')), b'TCZ')
            self.assertEqual(kinds(client.ask(*write, SYNC)), b'12CZ')
            self.assertEqual(kinds(client.ask('SELECT k FROM t WHERE k > 2')), b'TDCZ')


class Parameters(AtServer):
    """Statements with parameters, and their values (55.2.3)."""

    def told(self, client, text, values=(), formats=(), types=()):
        """The value that a statement of one row answers."""
        told = client.ask(parse(text, types=types), bind(values, formats=formats), execute(), SYNC)
        self.assertEqual(kinds(told), b'12DCZ', codes(told))
        return told[2][1][6:]

    def test_values_of_each_type(self):
        two, four, eight = (lambda number, form=form: struct.pack(form, number) for form in ('>h', '>i', '>q'))
        with self.served('--clients', 1), Client(self.socket, 'root') as client:
            for number, value, code, wanted in [
                    (20, b'-9223372036854775808', 0, b'-9223372036854775808'), (20, eight(2 ** 63 - 1), 1, b'9223372036854775807'), (20, eight(-1), 1, b'-1'),
                    (23, b' +7 ', 0, b'7'), (23, four(-2 ** 31), 1, b'-2147483648'), (21, b'-32768', 0, b'-32768'), (21, two(-5), 1, b'-5'), (1700, b'12', 0, b'12'),
                    (25, b'one', 0, b'one'), (25, b'one', 1, b'one'), (1043, b'', 0, b''), (19, b'n', 1, b'n'), (0, b'a', 0, b'a'), (705, b"'; --", 0, b"'; --"),
                    (16, b' TRUE', 0, b't'), (16, b'of', 0, b'f'), (16, b'\1', 1, b't'), (16, b'\0', 1, b'f')]:
                with self.subTest(number, value=value):
                    self.assertEqual(self.told(client, 'SELECT $1', [value], [code], [number]), wanted)
            told = client.ask(parse('SELECT $1, $2', types=[20, 16]), bind([None, None], formats=[1, 0]), execute(), SYNC)
            self.assertEqual(told[2], (b'D', b'\0\2' + b'\xff' * 8))
            self.assertEqual(self.told(client, 'SELECT $2 - $1', [b'-3', eight(4)], [0, 1], [20, 20]), b'7')
            self.assertEqual(self.told(client, 'SELECT 5 -$1', [b'-3'], (), [20]), b'8')

    def test_a_value_is_no_statement(self):
        """Whatever bytes it holds, a value is one literal."""
        with self.served('--clients', 1), Client(self.socket, 'root') as client:
            for value in ["'", "''", "'; DROP TABLE t; --", '$1', '$2', '/*', '*/', '--', '\\', "\\'", '\n', ';', '1 OR TRUE', 'NULL', "e'x'", 'é€', ' ', '', 'x' * 60000]:
                with self.subTest(value[:20]):
                    self.assertEqual(self.told(client, "SELECT $1 /* '$1' */ -- $2", [value.encode()]), value.encode())
                    told = client.ask(parse('SELECT k FROM t WHERE x = $1'), bind([value.encode()]), execute(), SYNC)
                    self.assertEqual(kinds(told), b'12CZ')
            self.assertEqual(self.told(client, "SELECT '$1'"), b'$1')
            told = client.ask(parse("SELECT 'costs $1', x FROM t WHERE k = $1 -- $2"), describe(b'S'), bind([b'1']), execute(), SYNC)
            self.assertEqual((kinds(told), told[1][1], told[4][1]), (b'1tT2DCZ', b'\0\1\0\0\0\x14', b'\0\2\0\0\0\x08costs $1\0\0\0\x03one'))
            self.assertEqual(client.ask('SELECT COUNT(*) FROM t')[1], (b'D', b'\0\1\0\0\0\x012'))

    def test_labels_and_values(self):
        """The names that PostgreSQL 15 tells for the columns of these texts."""
        with self.served('--clients', 1), Client(self.socket, 'root') as client:
            for text, values, names, types, row in [
                    ('SELECT count(*) AS n FROM t WHERE k = $1', [b'1'], ['n'], [20], [b'1']),
                    ('SELECT $1 AS "$2", k AS "a $3" FROM t WHERE k = 1', [b"'; AS z --"], ['$2', 'a $3'], [25], [b"'; AS z --", b'1']),
                    ('SELECT k /* $9 */ AS /* x */ "Key" -- $3\n FROM t WHERE k = $1', [b'2'], ['Key'], [20], [b'2']),
                    ('SELECT $1 AS user, x AS end FROM t AS u WHERE u.k = $2', [b'AS', b'1'], ['user', 'end'], [25, 20], [b'AS', b'one']),
                    ('SELECT $1 AS a, x, $1 AS a FROM t LIMIT $2', [b'" AS b', b'1'], ['a', 'x', 'a'], [25, 20], [b'" AS b', b'one', b'" AS b']),
                    ('SELECT version() AS v', [], ['v'], [], None), ('SELECT current_schema() AS "S"', [], ['S'], [], [b'public'])]:
                with self.subTest(text):
                    told = client.ask(parse(text, 'a'), describe(b'S', 'a'), bind(values, name='a'), describe(b'P'), execute(), bind(values, name='a'), execute(), close(b'S', 'a'), SYNC)
                    self.assertEqual(kinds(told), b'1tT2TDC2DC3Z', codes(told))
                    self.assertEqual(told[1][1], struct.pack('>H', len(types)) + b''.join(struct.pack('>I', one) for one in types))
                    self.assertEqual([column_names(told[at][1]) for at in (2, 4)], [names] * 2)
                    if row:
                        self.assertEqual([told[at][1] for at in (5, 8)], [struct.pack('>H', len(row)) + b''.join(struct.pack('>I', len(value)) + value for value in row)] * 2)
            self.assertEqual([column_names(client.ask(text)[0][1]) for text in ('SELECT version() AS v', 'SELECT version()', 'select current_schema() as "S"')], [['v'], ['version'], ['S']])

    def test_types_that_are_found(self):
        """A type that is not declared is found by where its parameter stands, and one that is declared is told as it is."""
        with self.served('--clients', 1), Client(self.socket, 'root') as client:
            for text, declared, wanted in [
                    ('SELECT $1', (), [25]), ('SELECT k FROM t WHERE k = $1', (), [20]), ('SELECT k FROM t WHERE x = $1 LIMIT $2', (), [25, 20]), ('SELECT $1 + 1, NOT $2', (), [20, 16]),
                    ('INSERT INTO t VALUES ($1, $2), ($3, $4)', (), [20, 25, 20, 25]), ('UPDATE t SET x = $2 WHERE k = $1', [23], [23, 25]), ('DELETE FROM t WHERE $1 AND k < $2', [0, 21], [16, 21]),
                    ('SELECT $2', [23], [23, 25]), ('SELECT $1', [1043, 16], [1043, 16]), ('SELECT k FROM t WHERE $1 = k', [705], [20]), ('SELECT k FROM t LIMIT $1', [0], [20])]:
                with self.subTest(text):
                    told = client.ask(parse(text, types=declared), describe(b'S'), SYNC)
                    self.assertEqual(kinds(told), b'1t' + (b'T' if text.startswith('SELECT') else b'n') + b'Z', codes(told))
                    self.assertEqual(told[1][1], struct.pack('>H', len(wanted)) + b''.join(struct.pack('>I', one) for one in wanted))
            told = client.ask(parse('SELECT $1, $2', types=[16]), describe(b'S'), bind([b'1', b'x']), describe(b'P'), execute(), SYNC)
            self.assertEqual(kinds(told), b'1tT2TDCZ')
            self.assertEqual([told[2][1][at:at + 4] for at in (17, 44)], [struct.pack('>I', number) for number in (16, 25)])

    def test_statements_that_are_kept(self):
        with self.served('--clients', 1), Client(self.socket, 'root') as client:
            write = parse('INSERT INTO t VALUES ($1, $2)', 'w'), bind([b'3', b'c'], name='w'), execute(), bind([b'4', None], name='w'), execute(), SYNC
            self.assertEqual(kinds(client.ask(*write)), b'12C2CZ')
            self.assertEqual(kinds(client.ask(bind([b'5', b'e'], name='w'), execute(), bind([b'5', b'f'], name='w'), execute(), SYNC)), b'2C2EZ')
            self.assertEqual(client.ask('SELECT COUNT(*) FROM t')[1], (b'D', b'\0\1\0\0\0\x014'))
            self.assertEqual(kinds(client.ask(close(b'S', 'w'), bind([b'6', None], name='w'), SYNC)), b'3EZ')
            self.assertEqual(kinds(client.ask(parse('SELECT $1', 'w', [20]), parse('SELECT zz, $1'), SYNC)), b'1EZ')
            self.assertEqual(codes(client.ask(bind([b'1']), SYNC)), ['26000'])
            self.assertEqual(kinds(client.ask(bind([b'1'], name='w'), execute(), SYNC)), b'2DCZ')

    def test_faults(self):
        with self.served('--clients', 1), Client(self.socket, 'root') as client:
            one, write = parse('SELECT $1', types=[20]), parse('INSERT INTO t VALUES ($1, $2)')
            for messages, code in [
                    ((parse('SELECT $0'),), '42P02'), ((parse('SELECT $65536'),), '42P02'), ((parse('CREATE TABLE u (k BIGINT PRIMARY KEY, x BIGINT) -- $1\n $1'),), '42P02'),
                    ((parse('SELECT $1', types=[114]),), '0A000'), ((parse('SELECT $1; SELECT $2'),), '42601'), ((parse('SELECT $1 $2'),), '42601'), ((parse('SELECT $1 /* '), bind(), execute()), '42601'),
                    ((parse('SELECT zz FROM t WHERE k = $1'),), '42703'), ((parse('SELECT k FROM t WHERE k = $1', types=[25]),), '42804'), ((parse('SELECT $4097'),), '54000'),
                    ((parse('SELECT $2'),), '42P18'), ((parse('SELECT $2', types=[0]),), '42P18'), ((parse('SELECT k FROM t WHERE k = $2', types=[705]),), '42P18'),
                    ((parse('SELECT $1', types=[1043, 0]),), '42P18'), ((parse('INSERT INTO t VALUES ($1, $3)'),), '42P18'), ((parse('SELECT zz FROM t WHERE k = $2'),), '42703'),
                    ((parse('SELECT $1 AS $2'),), '42601'), ((parse('SELECT k AS a FROM t WHERE k = $1; SELECT 1 AS b'),), '42601'), ((parse('SELECT -k AS k FROM t WHERE k = $1 ORDER BY k'),), '42601'),
                    ((parse('SELECT k FROM pg_catalog.pg_class WHERE k = $1'),), '0A000'), ((parse('SELECT left FROM t WHERE k = $1'),), '0A000'),
                    ((one, bind()), '08P01'), ((one, bind([b'1', b'2'])), '08P01'), ((write, bind([b'1', None], formats=[0, 0, 0])), '08P01'),
                    ((one, bind([b'x'])), '22P02'), ((one, bind([b''])), '22P02'), ((one, bind([b'9223372036854775808'])), '22003'), ((one, bind([b'1'], formats=[1])), '22P03'),
                    ((one, bind([b'1'], formats=[2])), '22023'), ((parse('SELECT $1', types=[16]), bind([b'maybe'])), '22P02'), ((parse('SELECT $1', types=[21]), bind([b'32768'])), '22003'),
                    ((parse('SELECT $1', types=[1700]), bind([b'1.5'])), '22003'), ((write, bind([b'3', b'\xff'])), '22021'), ((write, bind([b'3', b'a\0b'])), '22021'),
                    ((parse('SELECT $1'), bind([b"'" * 40000])), '54000'), ((write, bind([b'1', None]), execute()), '23505')]:
                with self.subTest(code, messages=[message[:60] for message in messages]):
                    told = client.ask(*messages, parse('SELECT 1'), query('SELECT 1'), SYNC)
                    self.assertEqual((codes(told), told[-1]), ([code], (b'Z', b'I')))
                    self.assertEqual(client.ask('SELECT COUNT(*) FROM t')[1], (b'D', b'\0\1\0\0\0\x012'))

    def test_a_block(self):
        with self.served('--clients', 1), Client(self.socket, 'root') as client:
            self.assertEqual(kinds(client.ask('BEGIN')), b'CZ')
            told = client.ask(parse('INSERT INTO t VALUES ($1, $2)', 'w'), bind([b'3', None], name='w'), execute(), SYNC)
            self.assertEqual((kinds(told), told[-1]), (b'12CZ', (b'Z', b'T')))
            self.assertEqual(client.ask(bind([b'x', None], name='w'), SYNC)[-1], (b'Z', b'E'))
            self.assertEqual(codes(client.ask(parse('SELECT $1'), SYNC)), ['25P02'])
            self.assertEqual(client.ask('COMMIT')[0], (b'C', b'ROLLBACK\0'))
            self.assertEqual(client.ask('SELECT COUNT(*) FROM t')[1], (b'D', b'\0\1\0\0\0\x012'))


class Bounds(AtServer):
    """Whatever is sent, a server takes little memory, answers others and goes on."""

    def others(self, client):
        self.assertEqual(client.ask('SELECT COUNT(*) FROM t')[1], (b'D', b'\0\1\0\0\0\x012'))

    def test_a_start_that_does_not_end(self):
        with self.served('--clients', 8, '--idle', 1) as server, Client(self.socket) as slow, Client(self.socket) as silent, Client(self.socket) as third:
            slow.send(b'\0\0\x27\x10')
            third.send(start_packet('root')[:-1])
            for _ in range(10):
                with Client(self.socket, 'root') as other:
                    self.others(other)
            for client in (slow, silent, third):
                self.assertEqual(client.rest(), [])
            self.assertLess(memory_of(server.pid)[1], ROOM)

    def test_as_many_parameters_as_are_named(self):
        with self.served('--clients', 2) as server, Client(self.socket, 'root') as other:
            before = memory_of(server.pid)[0]
            for _ in range(20):
                with Client(self.socket, 'root') as client:
                    told = client.ask(parse('SELECT 1', types=[20] * 32000), SYNC)
                    self.assertEqual(kinds(told), b'1Z')
                    self.assertEqual(codes(client.ask(bind([None] * 32000), SYNC)), ['08P01'])
                    self.assertEqual(codes(client.ask(bind(formats=[0] * 65000), SYNC)), [])
                    self.assertEqual(kinds(client.ask('SELECT ' + ', '.join('1' for _ in range(40000)))), b'EZ')
                    client.send(packet(b'P', b'\0SELECT 1\0\xff\xff'))
                    self.assertEqual(codes(client.rest()), ['08P01'])
                with Client(self.socket) as client:
                    client.send(packet(b'', struct.pack('>I', 3 << 16) + b'a\0\0' * 3000 + b'user\0bob\0\0'))
                    self.assertEqual(client.until(b'Z')[-1], (b'Z', b'I'))
                self.others(other)
            self.assertLess(memory_of(server.pid)[1] - before, ROOM)

    def test_as_many_statements_as_are_kept(self):
        """512 statements and 64 portals are kept of a connection; their memory is given back at its end."""
        with self.served('--clients', 2) as server, Client(self.socket, 'root') as other:
            before = memory_of(server.pid)[0]
            with Client(self.socket, 'root') as client:
                for number in range(512):
                    self.assertEqual(kinds(client.ask(parse('SELECT 1', f's{number}'), SYNC)), b'1Z')
                self.assertEqual(codes(client.ask(parse('SELECT 1', 's512'), SYNC)), ['54000'])
                told = client.ask(*(bind(portal=f'p{number}', name='s1') for number in range(65)), SYNC)
                self.assertEqual((kinds(told), codes(told)), (b'2' * 64 + b'EZ', ['54000']))
                self.assertEqual(kinds(client.ask('SELECT 1')), b'TDCZ')
            self.others(other)
            self.assertLess(memory_of(server.pid)[1] - before, ROOM)

    def test_a_client_that_does_not_read(self):
        with self.served('--clients', 2) as server, Client(self.socket, 'root') as other, Client(self.socket, 'bob') as client:
            before = memory_of(server.pid)[0]
            client.socket.setblocking(False)
            wide, sent = query('SELECT ' + ', '.join(f"'{'y' * 50}'" for _ in range(16))), 0
            for _ in range(2000):
                try:
                    sent += client.socket.send(wide * 50)
                except BlockingIOError:
                    self.others(other)
            self.assertLess(memory_of(server.pid)[1] - before, ROOM)

    def test_messages_at_random(self):
        """MESSAGES messages, altered and joined: what comes back is messages, the connection ends, and what bob may not change stays."""
        choice = random.Random(SEED)
        sent = 0
        with self.served('--clients', 3) as server, Client(self.socket, 'root') as other:
            before = memory_of(server.pid)[0]
            while sent < MESSAGES:
                messages = [altered(choice, choice.choice(SAMPLES)) for _ in range(choice.randint(1, 20))]
                start = altered(choice, start_packet('bob')) if choice.random() < 0.2 else start_packet('bob')
                sent += len(messages) + 1
                with self.subTest(seed=SEED, start=start, messages=messages), Client(self.socket) as client:
                    client.send(choice.choice([SSL_REQUEST, GSS_REQUEST]))
                    self.assertEqual(client.came.read(1), b'N')
                    self.tell(client, start, *messages)
                    self.sound(client)
                self.others(other)
            self.assertLess(memory_of(server.pid)[1] - before, ROOM)

    def tell(self, client, *messages):
        try:
            client.send(*messages)
            client.socket.shutdown(socket.SHUT_WR)
        except OSError:         # it was ended before
            pass

    def sound(self, client):
        """What comes is messages of a server, each error with a code; and nothing comes behind a FATAL one."""
        while True:
            message = client.message()
            if message is None:
                break
            self.assertIn(message[0], [bytes([kind]) for kind in SERVERS])
            if message[0] == b'E':
                told = fields(message[1])
                self.assertRegex(told['C'], r'^[0-9A-Z]{5}$')
                if told['S'] == 'FATAL':
                    self.assertIsNone(client.message())


SAMPLES = [parse('SELECT $1, $2', types=[20]), parse('INSERT INTO t VALUES ($1, $2)', 'a'), bind([b'1', b'x']), bind([b'\0' * 8], formats=[1]), query('SELECT 1'), query('SELECT k, x FROM t ORDER BY k'), query('BEGIN'), query('COMMIT'), query('ROLLBACK'), query('INSERT INTO t VALUES (7, NULL)'),
           query("SELECT 'a;b'; SELECT 2;"), query('SET client_encoding = \'UTF8\''), query('SHOW timezone'), query('SELECT * FROM pg_catalog.pg_class'), query('END'),
           query(';' * 100), query(''), parse('SELECT 1'), parse('SELECT k FROM t', 'a'), bind(), bind(name='a', portal='b'), bind([b'1', None]), execute(), execute('b'),
           execute(most=1), describe(b'S'), describe(b'P', 'b'), close(b'S', 'a'), close(b'P'), SYNC, SYNC, SYNC, FLUSH, packet(b'F', b'\0' * 12), packet(b'd', b'abc'),
           packet(b'c', b''), packet(b'f', b'no\0'), packet(b'p', b'word\0'), packet(b'Z', b'I'), LEAVE, start_packet('bob'), SSL_REQUEST, CANCEL_REQUEST, b'', bytes(9)]


def altered(choice, message):
    """A message with none to three changes: a byte, a cut, some bytes more, another length, or other bytes altogether."""
    made = bytearray(message)
    for _ in range(choice.choice([0, 0, 0, 1, 1, 2, 3])):
        at = choice.randrange(len(made) + 1)
        kind = choice.randrange(6)
        if kind == 0 and made:
            made[at - 1] = choice.randrange(256)
        elif kind == 1:
            del made[at:at + choice.randint(1, 8)]
        elif kind == 2:
            made[at:at] = choice.randbytes(choice.choice([1, 2, 8, 300]))
        elif kind == 3 and len(made) >= 5:
            made[1:5] = struct.pack('>I', choice.choice([0, 3, 4, 5, len(made) - 2, len(made), len(made) + 1, 9999, MOST, MOST + 1, 1 << 31]))
        elif kind == 4 and len(made) > 5:
            at = choice.randrange(5, len(made))
            made[at:at] = b'\0'
            made[1:5] = struct.pack('>I', len(made) - 1)
        elif kind == 5 and choice.random() < 0.1:
            made = bytearray(choice.randbytes(choice.randint(1, 2000)))
    return bytes(made)


if __name__ == '__main__':
    unittest.main()
