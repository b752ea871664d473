"""What the program of frame_talks_tests writes, computed a second time, from docs/protocol.md: `python3 expected.py > stdout`."""
import struct

ANSWERS = {1: b'ok OPEN\n', 2: b'ok UPDATE 12\n', 3: b'ok CLOSE\n'}      # the machine of the test carries everything out
EVENTS = [(1, 7, b'root'), (2, 7, b'SELECT 1'), (1, 258, b'ann'), (2, 7, b'BEGIN'), (3, 258, b'')]


def frame(kind, session, payload):
    return struct.pack('>IBI', 5 + len(payload), kind, session) + payload


sent = b''.join(frame(*event) for event in EVENTS) + b'\0\0\0\4' + b'behind it nothing is read'
told = b''.join(frame(4, session, ANSWERS[kind]) for kind, session, _ in EVENTS) + frame(4, 0, b'refused 08P01\n')
print(len(told))
print(told.hex())
print(f'{len(sent)} of {len(sent)}')
