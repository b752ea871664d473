"""Requests of messages of PostgreSQL's protocol, and the answers that its manual gives (chapter 55).

`recorded.txt` has what clients sent to PostgreSQL 15, a segment in a line: the client, the segment's size in bytes, and its
messages. Messages are spelled here by `struct` alone; those of a segment must have the recorded size.
"""
import ast
import os
import struct

HERE = os.path.dirname(os.path.realpath(__file__))
KINDS = {'Bind': b'B', 'Close': b'C', 'CopyData': b'd', 'CopyDone': b'c', 'CopyFail': b'f', 'Describe': b'D', 'Execute': b'E', 'Flush': b'H',
         'FunctionCall': b'F', 'Parse': b'P', 'Password': b'p', 'Query': b'Q', 'Sync': b'S', 'Terminate': b'X'}
LIMIT = 131072


def string(text):
    return (text if isinstance(text, bytes) else text.encode()) + b'\0'


def int16s(numbers):
    return struct.pack(f'>H{len(numbers)}H', len(numbers), *numbers)


def int32s(numbers):
    return struct.pack(f'>H{len(numbers)}I', len(numbers), *numbers)


def value(v):
    return struct.pack('>i', -1) if v is None else struct.pack('>i', len(v)) + v


def values(vs):
    return struct.pack('>H', len(vs)) + b''.join(map(value, vs))


def packet(kind, body):
    return kind + struct.pack('>I', 4 + len(body)) + body


def start(code, body=b''):
    return struct.pack('>II', 8 + len(body), code) + body


def body_of(name, *parts):
    """The body of a message of a client."""
    if name == 'Bind':
        portal, statement, formats, bound, results = parts
        return string(portal) + string(statement) + int16s(formats) + values(bound) + int16s(results)
    if name in ('Close', 'Describe'):
        return parts[0].encode() + string(parts[1])
    if name == 'Execute':
        return string(parts[0]) + struct.pack('>I', parts[1])
    if name == 'Parse':
        return string(parts[0]) + string(parts[1]) + int32s(parts[2])
    if name == 'Query':
        return string(parts[0])
    return parts[0] if parts else b''


def spelled(message):
    """The bytes of a message or of a packet of the start."""
    name, *parts = message
    if name == 'SSLRequest':
        return start(80877103)
    if name == 'GSSENCRequest':
        return start(80877104)
    if name == 'CancelRequest':
        return start(80877102, struct.pack('>II', *parts))
    if name == 'StartupMessage':
        return start(196608, b''.join(map(string, parts[0])) + b'\0')
    return packet(KINDS[name], body_of(name, *parts))


def digits(data):
    data = data if isinstance(data, bytes) else data.encode()
    return data.hex() or '-'


def word(v):
    return 'null' if v is None else '=' + v.hex()


def line(*words):
    return ' '.join(str(w) for w in words)


def told(message):
    """What the program says of a message."""
    name, *parts = message
    if name == 'Bind':
        portal, statement, formats, bound, results = parts
        return line(name, digits(portal), digits(statement), 'formats', *formats, 'values', *map(word, bound), 'formats', *results)
    if name in ('Close', 'Describe'):
        return line(name, {'S': 'statement', 'P': 'portal'}[parts[0]], digits(parts[1]))
    if name == 'Execute':
        return line(name, digits(parts[0]), parts[1])
    if name == 'Parse':
        return line(name, digits(parts[0]), digits(parts[1]), *parts[2])
    if name == 'StartupMessage':
        return line(name, '3.0', *map(digits, parts[0]))
    if name == 'CancelRequest':
        return line(name, *parts)
    return line(name, *map(digits, parts))


def is_start(message):
    return message[0] in ('SSLRequest', 'GSSENCRequest', 'CancelRequest', 'StartupMessage')


def recorded():
    """What clients sent: each message, and each segment cut in three ways."""
    seen = set()
    with open(os.path.join(HERE, 'recorded.txt'), encoding='utf-8') as file:
        segments = [ast.literal_eval(text) for text in file]
    for client, size, messages in segments:
        assert sum(len(spelled(m)) for m in messages) == size, (client, size, messages)
        for message in messages:
            data = spelled(message)
            if data in seen:
                continue
            seen.add(data)
            if is_start(message):
                yield line('start-front', data.hex()), line('whole', len(data))
                yield line('start', data.hex()), told(message)
            else:
                yield line('message', data.hex()), told(message)
        if not any(map(is_start, messages)) and len(messages) > 1:
            data = b''.join(map(spelled, messages))
            for cut in (1, 7, 100):
                yield line('sizes', cut, data.hex()), line(*(len(spelled(m)) for m in messages), 'left', 0)


def read_well():
    """Messages that no recorded client sent."""
    for message in (('CopyData', b'abc'), ('CopyDone',), ('CopyFail', b'x\0'), ('FunctionCall', b'\0\0\0\1\0\0\0\0\0\0'), ('Password', b'x\0'),
                    ('Execute', '', 0xFFFFFFFF), ('Bind', 'p', 's', [7], [b'', None, b'a\0b'], [0, 1]), ('Query', ''), ('Query', 'SELECT \'é\''),
                    ('Bind', '', '', [], [None] * 3, [])):
        if message[0] == 'CopyDone':
            yield line('message', spelled(message).hex()), line('CopyDone', '-')
        else:
            yield line('message', spelled(message).hex()), told(message)
    yield line('start', spelled(('GSSENCRequest',)).hex()), 'GSSENCRequest'
    yield line('start', start(196610, b'user\0root\0\0').hex()), line('StartupMessage', '3.2', digits('user'), digits('root'))
    yield line('start', start(131072, b'abc').hex()), line('other', 131072)
    yield line('start', start(262144).hex()), line('other', 262144)
    yield line('sasl', (b'SCRAM-SHA-256\0' + value(b'n,,n=,r=abc')).hex()), line('SASLInitialResponse', digits('SCRAM-SHA-256'), word(b'n,,n=,r=abc'))
    yield line('sasl', (b'SCRAM-SHA-256\0' + value(None)).hex()), line('SASLInitialResponse', digits('SCRAM-SHA-256'), 'null')


def read_badly():
    """Bytes that are no message, or one whose texts are not UTF-8."""
    malformed = [
        packet(b'Q', b'SELECT 1'), packet(b'Q', b'SELECT 1\0x'), packet(b'Q', b''), packet(b'Q', b'SELECT \0 1\0'), packet(b'S', b'x'),
        packet(b'H', b'\0'), packet(b'X', b'\0'), packet(b'P', b'SELECT 1'), packet(b'P', b'\0SELECT 1\0'), packet(b'P', b'\0SELECT 1\0\0\5'),
        packet(b'P', b'\0SELECT 1\0\0\1\0\0\0'), packet(b'P', b'\0SELECT 1\0\0\0\0'), packet(b'P', b'\0SELECT 1\0\xff\xff'),
        packet(b'B', b'\0'), packet(b'B', b'\0\0\0\0\0\1\xff\xff\xff\xfe\0\0'), packet(b'B', b'\0\0\0\0\0\1\0\0\1\0\0\0'),
        packet(b'B', b'\0\0\0\0\0\1\x80\0\0\0\0\0'), packet(b'B', b'\0\0\0\0\0\0\0\0x'), packet(b'B', b'\0\0\0\0\0\0\0'),
        packet(b'B', b'\0\0\0\2\0\1\0\0\0\0'), packet(b'B', b'\0\0\xff\xff\0\0\0\0'), packet(b'D', b'Zx\0'), packet(b'D', b''), packet(b'D', b'S'),
        packet(b'D', b'Sx\0y'), packet(b'C', b'px\0'), packet(b'E', b'p\0\0\0\0'), packet(b'E', b'p\0\0\0\0\0\0'), packet(b'E', b'p\0\0\0'),
        packet(b'z', b'abc'), b'', b'S', b'S\0\0\0', b'S\0\0\0\3', b'S\0\0\0\5', b'S\0\0\0\4\0', b'Q\0\0\0\5x',
    ]
    for data in malformed:
        yield line('message', data.hex()), 'malformed'
    not_text = [
        packet(b'Q', b"SELECT '\xff'\0"), packet(b'P', b'\xc3\0SELECT 1\0\0\0'), packet(b'P', b'\0SELECT \xed\xa0\x80\0\0\0'), packet(b'D', b'S\x80\0'),
        packet(b'C', b'P\xf5\0'), packet(b'E', b'\xfe\0\0\0\0\0'), packet(b'B', b'\xff\0\0\0\0\0\0\0\0'), packet(b'B', b'\0\xff\0\0\0\0\0\0\0'),
    ]
    for data in not_text:
        yield line('message', data.hex()), 'not text'
    starts = [
        start(80877103, b'x'), start(80877104, b'x'), start(80877102, b'abcdefg'), start(80877102, b'abcdefghi'), start(196608), start(196608, b'user'),
        start(196608, b'user\0'), start(196608, b'user\0root\0'), start(196608, b'user\0root'), start(196608, b'\0x'), start(196608, b'user\0root\0\0\0'),
        b'\0\0\0\7\0\3\0', b'\0\0\0\x0a\0\3\0\0\0', b'GET / HTTP/1.1\r\n\r\n',
    ]
    for data in starts:
        yield line('start', data.hex()), 'malformed'
    for body in (b'SCRAM-SHA-256', b'SCRAM-SHA-256\0', b'SCRAM-SHA-256\0' + value(b'abc') + b'x', b'SCRAM-SHA-256\0\0\0\0\5abc', b''):
        yield line('sasl', body.hex()), 'malformed'
    yield line('sasl', (b'\xff\0' + value(None)).hex()), 'not text'


def fronts():
    """What stands at the front: limits, kinds, and messages that are not there to their end."""
    sync = packet(b'S', b'')
    for limit, data, answer in (
            (LIMIT, b'', 'nothing'), (LIMIT, b'z', 'bad'), (LIMIT, b'z\0\0\0\4', 'bad'), (LIMIT, b'Q\0\0\0\3', 'bad'), (LIMIT, b'Q\x80\0\0\0', 'bad'),
            (LIMIT, b'Q\x40\0\0\0', 'bad'), (LIMIT, b'Q\xff\xff\xff\xff', 'bad'), (LIMIT, sync[:3], 'nothing'), (LIMIT, sync, 'whole 5'),
            (LIMIT, sync + b'z', 'whole 5'), (LIMIT, b'Q\0\2\0\0', 'nothing'), (LIMIT, b'Q\0\2\0\1', 'bad'), (2000, b'p\0\0\x07\xd0', 'nothing'),
            (2000, b'p\0\0\x07\xd1', 'bad'), (2000, packet(b'p', bytes(1996)), 'whole 2001'), (2000, packet(b'p', bytes(1997)), 'bad')):
        yield line('front', limit, data.hex()), answer
    for kind in range(256):
        yield line('front', LIMIT, bytes([kind]).hex()), 'nothing' if bytes([kind]) in KINDS.values() else 'bad'
    for data, answer in (
            (b'', 'nothing'), (b'\0\0\0', 'nothing'), (b'\0\0\0\4', 'bad'), (b'\0\0\0\7', 'bad'), (b'\0\0\0\x08', 'nothing'), (b'\0\0\x27\x10', 'nothing'),
            (b'\0\0\x27\x11', 'bad'), (start(80877103), 'whole 8'), (start(80877103) * 2, 'whole 8'), (b'GET / HTTP/1.1\r\n\r\n', 'bad'),
            (start(196608, bytes(9992)), 'whole 10000')):
        yield line('start-front', data.hex()), answer
    yield line('sizes', 3, (sync + b'Q\0\0\0\6x').hex()), 'left'.join(('5 ', ' 6'))


def report(severity, code, message, position):
    fields = b'S' + string(severity) + b'V' + string(severity) + b'C' + string(code) + b'M' + string(message)
    return fields + (b'P' + string(str(position)) if position else b'') + b'\0'


def written():
    """Messages of a server."""
    def answer(kind, body):
        return line('written', (b'!' + packet(kind, body)).hex())

    unfit = line('unfit', b'!'.hex())
    for vs in ([], [None], [b''], [b'1', b'ann', b't'], [b'3', None, None], [b'\0' * 8], [b'a' * 300]):
        yield line('row', *map(word, vs)) + (' ' if not vs else ''), answer(b'D', values(vs))
    for types in ([], [20], [20, 1043, 16], [26]):
        yield line('types', *types) + (' ' if not types else ''), answer(b't', int32s(types))
    for name, kind, number, size in (('count', 'int8', 20, 8), ('o', 'text', 25, -1), ('b', 'bool', 16, 1), ('?column?', 'int8', 20, 8)):
        for code, form in enumerate(('text', 'binary')):
            column = string(name) + struct.pack('>IHIhiH', 0, 0, number, size, -1, code)
            yield line('column', digits(name), kind, form), answer(b'T', b'\0\1' + column)
    yield line('column', b'a\0b'.hex(), 'int8', 'text'), unfit
    for severity, code, text, position in (('ERROR', '42703', 'column "zz" does not exist', 8), ('FATAL', '08P01', 'bad message', 0),
                                           ('WARNING', '25P01', 'there is no transaction in progress', 0), ('NOTICE', '00000', 'é', 0),
                                           ('PANIC', '58030', '', 4294967295), ('ERROR', '42601', 'x', 100)):
        yield line('report', 'error', severity, code, digits(text), position), answer(b'E', report(severity, code, text, position))
        yield line('report', 'notice', severity, code, digits(text), position), answer(b'N', report(severity, code, text, position))
    yield line('report', 'error', 'ERROR', '42601', b'a\0b'.hex(), 0), unfit
    for name, kind in (('BindComplete', b'2'), ('CloseComplete', b'3'), ('EmptyQueryResponse', b'I'), ('NoData', b'n'), ('ParseComplete', b'1'),
                       ('PortalSuspended', b's')):
        yield line('put', name), answer(kind, b'')
    for status in 'ITE':
        yield line('put', 'ReadyForQuery', status), answer(b'Z', status.encode())
    yield line('put', 'AuthenticationOk'), answer(b'R', struct.pack('>I', 0))
    yield line('put', 'AuthenticationSASL', digits('SCRAM-SHA-256')), answer(b'R', struct.pack('>I', 10) + b'SCRAM-SHA-256\0\0')
    yield line('put', 'AuthenticationSASLContinue', digits('r=abc')), answer(b'R', struct.pack('>I', 11) + b'r=abc')
    yield line('put', 'AuthenticationSASLFinal', digits('v=abc')), answer(b'R', struct.pack('>I', 12) + b'v=abc')
    yield line('put', 'BackendKeyData', 5250, 4294967295), answer(b'K', struct.pack('>II', 5250, 4294967295))
    yield line('put', 'ParameterStatus', digits('client_encoding'), digits('UTF8')), answer(b'S', b'client_encoding\0UTF8\0')
    yield line('put', 'ParameterStatus', b'a\0'.hex(), digits('UTF8')), unfit
    for tag in ('SELECT 3', 'INSERT 0 1', 'BEGIN', ''):
        yield line('put', 'CommandComplete', digits(tag)), answer(b'C', string(tag))
    yield line('put', 'CommandComplete', b'\0'.hex()), unfit


def pairs():
    """Each request with its answer."""
    return [pair for part in (recorded, read_well, read_badly, fronts, written) for pair in part()]
