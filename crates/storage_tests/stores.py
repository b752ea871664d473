#!/usr/bin/env python3
"""A second program, which answers the lines of the part `stores` as this crate's program is to.

tests/second_program.py hands it the lines, and python3 stores.py makes them. It shares nothing with the code: it keeps a dictionary for each tree and each store, and reads nodes and devices as
docs/formats.md describes them. What it says beside that is what is promised: that a commit of one change writes a leaf, a map
page and a root, and syncs before the root and after it; that with a journal it is a record, which takes a read and a
write of the first page and one sync, where that has room behind the others, and else all that waits is made in the pages with it; that a page which is read or written stays in a cache that has room for
it; that a store takes what it has room for; that leaves of keys which rise are nine tenths full. Where a line asks for what
nothing promises, it ends with an error. The calls are described at the head of src/stores.rt.
"""
import typing
import zlib

from images import newer_format

PAGE, SECTOR = 4096, 512
ROOM = PAGE - 4  # of the cells of a leaf
MAGIC = b"GUARDDB1"
JOURNAL_MAGIC = b"GDBJ"
JOURNAL_START, PARTS, PART = 2, 6, 488  # the sectors of a journal, and a record's bytes in each
MOST_CHANGES = 6  # wait in a journal, for which the devices here have room
# How many sectors a commit of one change in the place of another reads and writes before each sync: two pages, and a root
PAGES_STEPS = [(0, 16), (0, 1)]
RECORD_STEPS = [(8, 8)]  # and those of a record: the first page
KEYS = 1024
BATCHES = 200


# ---- bytes as words write them

def bytes_in(text):
    """The bytes of parts with pluses between them."""
    return b"".join(part_in(part) for part in text.split("+"))


def part_in(part):
    times, star, digits = part.partition("*")
    return bytes.fromhex(digits) * int(times) if star else bytes.fromhex(part)


def written(data):
    """Bytes as they are answered: of equal ones at the end, more than three are counted."""
    equal = len(data) - len(data.rstrip(data[-1:]))
    if equal <= 3:
        return data.hex()
    front = data[:-equal].hex()
    return front + "+" * bool(front) + "%d*%02x" % (equal, data[-1])


def cell_of(key, value):
    return len(key).to_bytes(2, "big") + len(value).to_bytes(2, "big") + key + value


def size_of(entries):
    return sum(len(cell_of(key, value)) for key, value in entries.items())


def leaf_of(entries):
    cells = b"".join(cell_of(key, entries[key]) for key in sorted(entries))
    return (b"\1\0" + len(entries).to_bytes(2, "big") + cells).ljust(PAGE, b"\0")


def digest_of(entries):
    """The Adler-32 digest of both lengths, in eight bytes each, the key and the value of each entry."""
    digest = 1
    for key in sorted(entries):
        value = entries[key]
        digest = zlib.adler32(len(key).to_bytes(8, "big") + len(value).to_bytes(8, "big") + key + value, digest)
    return digest


# ---- nodes and devices, read from the left

class Refused(Exception):
    """Why a device is not opened."""


def need(holds, reason="Damaged"):
    if not holds:
        raise Refused(reason)


class Held(typing.NamedTuple):
    """What a store has: a number, records and a format; and of its journal the root that it follows, how many sectors its
    records take, and their changes."""
    number: int
    entries: dict
    form: int
    root: int = 0
    end: int = 0
    waiting: int = 0


class Bytes:
    def __init__(self, data):
        self.data, self.at = data, 0

    def take(self, count):
        need(self.at + count <= len(self.data))
        self.at += count
        return self.data[self.at - count:self.at]

    def number(self, size):
        return int.from_bytes(self.take(size), "big")

    def key(self, length):
        need(1 <= length <= 205)
        return self.take(length)

    def end(self):
        need(not any(self.data[self.at:]))


def node_in(page):
    """The children of a node, none where it is a leaf, its keys, and its values."""
    reader = Bytes(page)
    kind, zero, count = reader.number(1), reader.number(1), reader.number(2)
    need(kind in (1, 2) and zero == 0 and (kind == 1 or count >= 1))
    children, keys, values = [reader.number(4)] if kind == 2 else [], [], []
    for _ in range(count):
        length = reader.number(2)
        if kind == 1:
            value_length = reader.number(2)
            need(value_length <= 1200)
            keys.append(reader.key(length))
            values.append(reader.take(value_length))
        else:
            children.append(reader.number(4))
            keys.append(reader.key(length))
    reader.end()
    need(all(key < other for key, other in zip(keys, keys[1:])))
    return children, keys, values


def tree_in(pages, at, met):
    """The height of the tree at a logical page, and its entries. The pages that it meets are added."""
    need(at in pages and at not in met)
    met.add(at)
    children, keys, values = node_in(pages[at])
    if not children:
        return 0, dict(zip(keys, values))
    below = [tree_in(pages, child, met) for child in children]
    need(all(height == below[0][0] and entries for height, entries in below))
    need(all(max(before) < key <= min(own) for key, (_, before), (_, own) in zip(keys, below, below[1:])))
    return below[0][0] + 1, {key: value for _, entries in below for key, value in entries.items()}


def entries_in(pages):
    """The entries of a tree whose pages these are."""
    met = set()
    _, entries = tree_in(pages, 0, met)
    need(met == set(pages))
    return entries


def root_in(sector, parity):
    """The pages that a root sector names, its number, its map pages, and its format. None is what a sector of zeros holds."""
    if not any(sector):
        return None
    reader = Bytes(sector)
    need(reader.take(8) == MAGIC)
    form = reader.number(4)
    pages, number, count = reader.number(4), reader.number(8), reader.number(4)
    need(form in (1, 2, 3) and number >= 1 and number % 2 == parity and 1 <= count <= 64)
    maps = [reader.number(4) for _ in range(count)]
    reader.end()
    return pages, number, maps, form


def change_in(reader):
    """The next change of a record's bytes, or None at their end."""
    kind = reader.number(1) if reader.at < len(reader.data) else 0
    if kind == 0:
        return None
    need(kind in (1, 2))
    length = reader.number(2)
    value_length = reader.number(2) if kind == 1 else None
    need(value_length is None or value_length <= 1200)
    key = reader.key(length)
    return key, None if value_length is None else reader.take(value_length)


def batch_in(data):
    """The changes that a record's bytes spell."""
    reader, changes = Bytes(data), []
    while change := change_in(reader):
        need(not changes or changes[-1][0] < change[0])
        changes.append(change)
    reader.end()
    need(changes and -(-len(record_of(dict(changes))) // PART) * PART == len(data))
    return dict(changes)


class Part:
    """A part of a record, as a sector has it."""

    def __init__(self, sector):
        reader = Bytes(sector)
        need(reader.take(4) == JOURNAL_MAGIC)
        self.root, self.number, self.index, self.count = (reader.number(size) for size in (8, 8, 2, 2))
        self.bytes = reader.take(PART)
        need(self.root >= 1 and self.index < self.count <= PARTS)

    def is_part_of(self, first, index):
        return (self.root, self.number, self.index, self.count) == (first.root, first.number, index, first.count)


def journal_in(sectors, root):
    """The changes of each record of this root, the greatest number in any sector, and where the records end."""
    parts = [Part(sector) if any(sector) else None for sector in sectors]
    need(all(part is None or part.root <= root for part in parts))
    batches, at, last = [], 0, 0
    while at < PARTS and parts[at] and parts[at].root == root and parts[at].index == 0 and parts[at].number > last:
        first, own = parts[at], parts[at:at + parts[at].count]
        if len(own) < first.count or not all(part and part.is_part_of(first, index) for index, part in enumerate(own)):
            break
        batches.append(batch_in(b"".join(part.bytes for part in own)))
        at, last = at + first.count, first.number
    need(not any(part and part.root == root and part.index == 0 for part in parts[at + 1:]))
    return batches, max((part.number for part in parts if part), default=0), at


def store_on(image):
    """What the store on a device of these bytes has."""
    count = len(image) // PAGE
    need(64 <= count <= 65536, "WrongSize")
    sectors = [bytes(image[SECTOR * at:SECTOR * (at + 1)]) for at in range(PAGE // SECTOR)]
    need(any(sector.startswith(MAGIC) for sector in sectors[:2]), "NotADatabase")
    newer = newer_format(sectors[:2])
    need(newer is None, f"NewerFormat({newer})")
    roots = [root_in(sector, parity) for parity, sector in enumerate(sectors[:2])]
    pages, number, maps, form = max((root for root in roots if root), key=lambda root: root[1])
    need(pages == count, "WrongSize")
    need(all(1 <= page < count for page in maps))
    listed = [entry for page in maps for entry in entries_of_map(image, page)]
    reach = maps + [entry for entry in listed if entry]
    need(len(set(reach)) == len(reach) and all(1 <= page < count for page in reach) and listed[0])
    entries = entries_in({at: page_of(image, entry) for at, entry in enumerate(listed) if entry})
    if form != 3:
        return Held(number, entries, form)
    batches, top, end = journal_in(sectors[JOURNAL_START:JOURNAL_START + PARTS], number)
    for batch in batches:
        entries = changed(entries, batch)
    return Held(max(number, top), entries, form, number, end, sum(map(len, batches)))


def page_of(image, page):
    return bytes(image[page * PAGE:(page + 1) * PAGE])


def entries_of_map(image, page):
    reader = Bytes(page_of(image, page))
    return [reader.number(4) for _ in range(PAGE // 4)]


def root_of(form, pages, number, map_page):
    numbers = [(form, 4), (pages, 4), (number, 8), (1, 4), (map_page, 4)]
    return MAGIC + b"".join(number.to_bytes(size, "big") for number, size in numbers)


def part_of(root, number, index, count, data=b""):
    """The sector of a part of a record."""
    fields = [(root, 8), (number, 8), (index, 2), (count, 2)]
    return JOURNAL_MAGIC + b"".join(field.to_bytes(size, "big") for field, size in fields) + data


def record_of(changes):
    """The bytes of a record's changes."""
    data = b""
    for key, value in sorted(changes.items()):
        data += bytes([1 if value is not None else 2]) + len(key).to_bytes(2, "big")
        data += key if value is None else len(value).to_bytes(2, "big") + key + value
    return data


def new_image(pages, key, value, form):
    """The bytes of a device on which a store was made new, with one record."""
    image = bytearray(pages * PAGE)
    image[SECTOR:SECTOR + 32] = root_of(form, pages, 1, 2)
    image[PAGE:2 * PAGE] = leaf_of({key: value})
    image[2 * PAGE + 3] = 1
    return image


# ---- what calls are made of

class Table:
    """A dictionary, and the calls that trees and stores have in common. Each call gives its answer, or nothing."""

    def __init__(self, entries):
        self.entries = entries
        self.has_failed = False

    def get(self, key):
        if self.has_failed:
            return "Device"
        value = self.entries.get(bytes_in(key))
        return "none" if value is None else written(value)

    def scan(self):
        count = len(self.entries)
        return "%d entries, %d found, %08x" % (count, count, digest_of(self.entries))

    def put(self, key, value):
        self.change(bytes_in(key), bytes_in(value))

    def remove(self, key):
        self.change(bytes_in(key), None)

    def rise(self, first, end, value):
        for number in range(int(first), int(end)):
            self.change(number.to_bytes(4, "big"), bytes_in(value))


def changed(entries, changes):
    after = {**entries, **changes}
    return {key: value for key, value in after.items() if value is not None}


def answered(low, high, least, most):
    """Whether a number that is promised from the one on to the other is within these."""
    if int(low) <= least and most <= int(high):
        return "yes"
    assert least == most, "nothing promises the number"
    return "%d" % least


def pages_answered(entries, kind, low, high):
    """The answer on how many pages the tree of these entries has, or leaves. It is known of trees of at most one entry;
    of others whose keys were put as they rise, the leaves are nine tenths full."""
    if len(entries) <= 1:
        return answered(low, high, 1, 1)
    assert kind == "leaves" and list(entries) == sorted(entries), "nothing promises the number"
    each = max(len(cell_of(key, value)) for key, value in entries.items())
    least = -(-size_of(entries) // (ROOM // each * each))
    return answered(low, high, least, len(entries) * 10 // (ROOM // each * 9))


class Tree(Table):
    def __init__(self):
        super().__init__(None)
        self.laid = {}

    def lay(self, data):
        self.laid[len(self.laid)] = bytes_in(data).ljust(PAGE, b"\0")

    def call(self, name, arguments):
        if name != "lay" and self.entries is None:
            self.entries = entries_in(self.laid)
        return getattr(self, name)(*arguments)

    def change(self, key, value):
        if value is None:
            self.entries.pop(key, None)
        else:
            self.entries[key] = value

    def page(self, number):
        assert len(self.entries) <= 1 and number == "0", "nothing promises the bytes"
        return written(leaf_of(self.entries))

    def pages(self, kind, low, high):
        return pages_answered(self.entries, kind, low, high)


class Store(Table):
    """A store in memory; or on a device, where there is one."""

    def __init__(self, held, device=None, cache=0):
        super().__init__(held.entries)
        self.held, self.device, self.cache = held, device, cache
        self.batch, self.fulls, self.failures, self.sectors_read = {}, 0, 0, 0

    def call(self, name, arguments):
        return getattr(self, name)(*arguments)

    def change(self, key, value):
        self.batch[key] = value

    def commit(self):
        return self.commit_in(self.held.form)

    def migrate(self):
        return self.commit_in(max(self.held.form, 2))

    def commit_in(self, form):
        """Commits the batch in this format."""
        changes, self.batch = self.batch, {}
        if self.has_failed:
            return "Device"
        after = changed(self.entries, changes)
        if not changes and form == self.held.form:
            return "ok"
        if self.device and not self.device.has_room(after):
            assert form != 3, "nothing promises how often a store with a journal is full"
            self.fulls += 1
            return "Full"
        steps, later = self.steps(changes, after, form)
        if self.device and not self.device.makes(steps, self.held, later):
            self.has_failed, self.failures = True, self.failures + 1
            return "Device"
        self.held, self.entries = later, after
        return "ok"

    def steps(self, changes, after, form):
        """How many sectors are read and written before each sync, none where that is not promised, and what the store has after
        them."""
        one = len(changes) == 1 and all(value is not None and len(self.entries.get(key, b"")) == len(value) for key, value in changes.items())
        pages = PAGES_STEPS if one or not changes or size_of(after) <= ROOM else None
        if form != 3:
            is_other = after != self.entries or form != self.held.form
            return pages, Held(self.held.number + is_other, after, form)
        parts = -(-len(record_of(changes)) // PART)
        root, end, waiting = self.held.root, self.held.end + parts, self.held.waiting + len(changes)
        if end <= PARTS:
            assert waiting <= MOST_CHANGES, "nothing promises a record"
            return RECORD_STEPS, Held(self.held.number + 1, after, 3, root, end, waiting)
        return pages, Held(max(self.held.number, root + 1), after, 3, root + 1)

    def record_format(self):
        assert not self.has_failed, "nothing promises the record format"
        return "first" if self.held.form == 1 else "second"

    def number(self):
        assert not self.has_failed, "nothing promises the number"
        return "%d, %d full, %d failed" % (self.held.number, self.fulls, self.failures)

    def stop(self, writes):
        self.device.writes_left = int(writes)

    def fail(self, calls):
        self.device.calls_left = int(calls)

    def get(self, key):
        # A cache of one page holds the page that was used last alone, here a leaf below the root.
        if self.device and self.cache < self.device.pages and not self.has_failed and self.held.form != 3:
            assert self.cache == 1 and size_of(self.entries) > ROOM, "nothing promises what is read"
            self.sectors_read += 2 * 8
        return super().get(key)

    def reads(self):
        assert self.held.form != 3, "nothing promises what is read"
        reads, self.sectors_read = self.sectors_read, 0
        return "%d" % reads


class Device:
    """A device: its bytes, where they are known; else what a store finds that is opened on it, by its last contents and by
    the synced ones."""

    def __init__(self, form, pages, key="", value=""):
        self.pages = int(pages)
        self.image = bytearray(self.pages * PAGE)
        if key:
            self.image = new_image(self.pages, bytes_in(key), bytes_in(value), form)
        self.last = self.synced = None
        self.writes_left = self.calls_left = None

    def turn(self, sector, at, bits):
        self.image[int(sector) * SECTOR + int(at)] ^= int(bits)

    def sector(self, sector, data):
        start = int(sector) * SECTOR
        self.image[start:start + SECTOR] = bytes_in(data).ljust(SECTOR, b"\0")

    def restart(self, kind):
        self.last = self.synced = self.last if kind == "last" else self.synced
        self.writes_left = self.calls_left = None

    def contents(self):
        if self.image is not None:
            return store_on(self.image)
        assert self.last == self.synced, "a restart is missing"
        return self.last

    def pages_in_use(self, kind, low, high):
        return pages_answered(self.contents().entries, kind, low, high)

    def has_room(self, entries):
        """Whether there is room for these records. It is known of those that take more than there is, and of those that take
        a third of it at most, since what a commit writes stands beside what was there."""
        size, room = size_of(entries), self.pages * ROOM
        assert size > room or size * 3 <= room, "nothing promises room"
        return size <= room

    def makes(self, steps, before, after):
        """Whether the device lets a commit pass that reads and writes so many sectors before each sync, and keeps what it has then."""
        self.image, self.last, self.synced = None, after, after
        if self.writes_left is None and self.calls_left is None:
            return True
        if steps is None:
            # The cells that are put are written, a map page and a root; so many writes are not left.
            puts = {key: value for key, value in after.entries.items() if before.entries.get(key) != value}
            assert self.calls_left is None and self.writes_left < 8 * -(-size_of(puts) // ROOM) + 8 + 1
            self.last = self.synced = before
            return False
        return self.passes(steps, before, after)

    def passes(self, steps, before, after):
        """The same where a stop comes, or a call fails."""
        writes, syncs = self.writes_that_pass(steps)
        if syncs == len(steps):
            return True
        self.last = self.synced = before
        is_record = steps is RECORD_STEPS
        if syncs == len(steps) - 1 and writes >= (JOURNAL_START + after.end if is_record else steps[-1][1]):
            self.last = after
        elif is_record and writes > JOURNAL_START + before.end:
            # Of a record that was cut off nothing is left but its number.
            self.last = before._replace(number=after.number)
        return False

    def writes_that_pass(self, steps):
        """How many sectors are written after the last sync that passes, and how many syncs pass."""
        for syncs, (reads, sectors) in enumerate(steps):
            left = self.calls_left - reads if self.writes_left is None else self.writes_left
            if left <= sectors:
                self.calls_left, self.writes_left = None, None if self.writes_left is None else 0
                return max(0, min(left, sectors)), syncs
            if self.writes_left is None:
                self.calls_left -= reads + sectors + 1
            else:
                self.writes_left -= sectors
        return 0, len(steps)


class Cache:
    """The pages that a cache holds, the one used last at the end."""

    def __init__(self, size):
        self.size, self.held = int(size), {}

    def call(self, name, arguments):
        return getattr(self, name)(*arguments)

    def put(self, page, data):
        self.held.pop(page, None)
        self.held[page] = bytes_in(data).ljust(PAGE, b"\0")
        while len(self.held) > self.size:
            del self.held[next(iter(self.held))]

    def forget(self, page):
        if page in self.held:
            self.held[page] = None

    def get(self, page):
        if page not in self.held:
            return "none"
        data = self.held[page] = self.held.pop(page)
        return "none" if data is None else written(data)


FAULTS = """of a store: the store is full
of a read: the device failed
of a store: out of memory
of a read: out of memory
of a store: the device failed
of a read: the device failed
of a store: no commit number is left
of a read: the device failed
of a read: a record is damaged"""


# ---- the answers to lines

def joined(lines):
    """The lines, each with those behind it that begin with a blank."""
    whole = []
    for line in lines:
        if line.startswith(" "):
            whole[-1] += line
        else:
            whole.append(line)
    return whole


def answers(lines):
    device = None
    for line in joined(lines):
        first, *words = line.split(" ")
        name, *arguments = first.split(":")
        if name == "#":
            yield line
        elif name == "faults":
            yield FAULTS
        elif name in ("device", "journaled"):
            device = Device(3 if name == "journaled" else 2, *arguments)
        elif name in ("turn", "sector", "restart"):
            getattr(device, name)(*arguments)
        elif name == "pages":
            yield first + " " + device.pages_in_use(*arguments)
        elif name == "open":
            yield from answers_on(device, first, int(arguments[0]), words)
        elif name == "tree":
            yield from answers_of(Tree(), words)
        elif name == "memory":
            yield from answers_of(Store(Held(1, {b"\1" + arguments[0].encode(): b"\3"}, 2)), words)
        elif name == "cache":
            yield from answers_of(Cache(*arguments), words)
        else:
            assert line == "", "no such line"


def answers_on(device, first, cache, words):
    try:
        held = device.contents()
    except Refused as refused:
        yield "%s %s" % (first, refused)
        return
    yield from answers_of(Store(held, device, cache), words)


def answers_of(subject, words):
    for word in words:
        name, *arguments = word.split(":")
        answer = subject.call(name, arguments)
        if answer is not None:
            yield word + " " + answer


# ---- the lines

def laid_out(first, calls):
    """A line of calls, cut into lines of at most 120 bytes."""
    line = first
    for call in calls:
        if len(line) + 1 + len(call) > 120:
            yield line
            line = ""
        line += " " + call
    yield line


def next_random(number):
    return (number * 6364136223846793005 + 1442695040888963407) % 2**64


def key_of(number):
    """The key of a number: four bytes of it, and up to 201 more."""
    return written(number.to_bytes(4, "big") + bytes([number % 251]) * (number % 202))


def put_of(number, byte):
    """A put of a number's key, with a value of up to 1,200 bytes."""
    return "put:%s:%s" % (key_of(number), written(bytes([byte]) * (number * 13 % 1201)))


def in_order(factor):
    """Each number below KEYS, in an order of this factor."""
    number = 1
    for _ in range(KEYS):
        number = (number * factor + 12345) % KEYS
        yield number


def with_scans(calls):
    """The calls, with a scan behind the first, behind every 256, and behind the last."""
    for at, call in enumerate(calls):
        yield call
        if at % 256 == 0:
            yield "scan"
    yield "scan"


def two_orders():
    yield "lay:01"
    yield from with_scans(put_of(number, 1) for number in in_order(1105))
    yield from with_scans(put_of(number, 2) for number in in_order(2053))
    yield from with_scans("remove:" + key_of(number) for number in in_order(1021))
    yield from ["page:0", "pages:all:1:1"]


def random_batches(drawn):
    """Batches of six changes, of keys of one byte or two."""
    for _ in range(BATCHES):
        for _ in range(6):
            drawn = next_random(drawn)
            key = bytes([(drawn >> 40) % 5, (drawn >> 32) % 5])[:1 + (drawn >> 50) % 2].hex()
            yield "remove:" + key if (drawn >> 54) % 4 == 0 else "put:%s:%02x" % (key, (drawn >> 24) % 256)
        yield from ["commit", "scan"]


ROLE = "01726f6f74"  # the key of the role root, whose value is 03
NEW = "device:64:6669727374:76616c7565"  # a new store of the record first, value
FIRST = [NEW, "turn:1:11:3"]  # the same in record format 1
GETS = ["get:%08x" % number for number in range(20)]
TWENTY = ["rise:0:20:1000*07", "commit"]

CHANGED_BYTES = [
    ("the number of the root", "1:23:1"),
    ("a page that stands twice in the map", "16:7:1"),
    ("a page in the map that no node names", "16:7:3"),
    ("a page that is no node", "8:0:8"),
    ("the length of the key", "8:5:1"),
    ("the value, which is another record", "8:13:1"),
]


def lines():
    yield from lines_of_trees()
    yield from lines_of_memory()
    yield from lines_of_devices()
    yield from lines_of_stops()
    yield from lines_of_journals()
    yield from lines_of_images()
    yield from ["", "# A cache of two pages: the one that was used least recently gives up its place"]
    yield "cache:2 put:7:4096*46 put:8:4096*50 get:7 put:9:0102+4094*5a get:8 get:7 get:9"
    yield from ["# A page that is forgotten is held again once it is put"]
    yield "cache:2 put:7:4096*46 forget:7 get:7 put:7:4096*47 get:7"
    yield from ["# A cache of no page", "cache:0 put:7:4096*46 get:7"]
    yield from ["", "# The texts of the faults", "faults"]


def lines_of_trees():
    yield from ["# A put writes the bytes of a leaf", "tree lay:01 put:%s:03 page:0 pages:all:1:1 scan" % ROLE]
    yield "# Nodes that are laid out by hand: an inner node with the key m above two leaves"
    nodes = ["0200000100000001000100000002+6d", "01000001+00010003+61+6f6e65", "01000001+00010004+6d+666f7572"]
    yield from laid_out("tree", ["lay:" + node for node in nodes] + ["scan", "get:61", "get:6c", "get:6d", "get:6d00"])
    yield f"# {KEYS:,} keys are put in two orders, and removed in a third"
    yield from laid_out("tree", two_orders())
    yield from ["# Keys that rise fill their leaves", "tree lay:01 rise:0:20000:32*07 pages:leaves:197:217 scan"]


def lines_of_memory():
    yield from ["", "# A new database has one role", "memory:root scan get:%s get:%s00" % (ROLE, ROLE)]
    yield "# Batches change a store in memory"
    yield from laid_out("memory:root", ["remove:" + ROLE, "commit", "scan", *random_batches(7)])
    yield "# Records are of record format 2, and stay of it"
    yield "memory:root record_format put:03:0f commit record_format put:0103:8f remove:03 migrate record_format scan put:02:80 commit record_format scan"
    yield "memory:root migrate record_format scan migrate record_format scan"


def lines_of_devices():
    yield from ["", "# Batches change a store on a device", "device:64:%s:03" % ROLE]
    yield from laid_out("open:256", ["remove:" + ROLE, "commit", "scan", *random_batches(8)])
    yield from ["restart:synced", "open:256 scan"]
    yield from ["# What was made new is found", NEW, "open:256 number scan get:6669727374"]
    yield from ["# A commit is found again, after a stop too, and so is what was there before", NEW]
    yield "open:256 rise:0:20:1000*07 commit number commit number"
    yield "open:256 get:00000013 get:6669727374 scan number"
    yield from ["restart:synced", "open:256 get:00000013 get:6669727374 scan number"]
    yield from ["# A record is removed", NEW]
    yield "open:256 rise:0:20:1000*07 commit remove:00000013 commit get:00000013 scan number"
    yield from ["restart:synced", "open:256 get:00000012 get:00000013 scan number"]
    yield from ["# A batch that fits follows one that does not", NEW]
    yield "open:256 rise:0:300:1000*07 commit number scan rise:0:20:1000*07 commit number scan"
    yield from ["restart:synced", "open:256 number scan get:00000013 get:00000014"]
    yield from ["# Keys that rise fill their leaves", "device:64:00:"]
    yield from laid_out("open:256", [word for first in range(0, 2000, 500)
                                     for word in ["rise:%d:%d:32*07" % (first, first + 500), "commit"]] + ["scan"])
    yield from ["pages:leaves:20:21", "open:256 scan"]
    yield from ["# A new store is of record format 2, and stays of it", NEW]
    yield "open:256 record_format put:03:0f commit record_format number migrate record_format number scan"
    yield from ["restart:synced", "open:256 record_format number scan get:6669727374"]
    yield from ["# Records of record format 1 stay of it until they are migrated, and an empty batch makes them of record format 2", *FIRST]
    yield "open:256 record_format put:03:0f commit record_format number migrate record_format number migrate record_format number scan"
    yield "open:256 record_format number put:0103:8f commit record_format number scan"
    yield from ["restart:synced", "open:256 record_format number scan get:6669727374", *FIRST]
    yield "open:256 put:0103:8f remove:6669727374 migrate record_format number scan"
    yield from ["restart:synced", "open:256 record_format number scan"]
    yield from ["# A store whose root is of format 0, one of format 3, and one of format 9", NEW, "turn:1:11:2", "open:256"]
    yield from [NEW, "turn:1:11:1", "open:256", NEW, "turn:1:11:11", "open:256"]
    for what, place in CHANGED_BYTES:
        yield from ["# A byte of a new store is turned: " + what, NEW, "turn:" + place, "open:256 get:6669727374"]
    yield from ["# A device of zeros, and one with a page less", "device:64", "open:256", "device:63", "open:256"]


def lines_of_stops():
    yield from ["", "# A commit of one change writes 17 sectors, syncs twice, and reads nothing"]
    for hindrance in ["stop:16", "stop:17", "stop:18", "fail:17", "fail:18", "fail:19"]:
        for kind in ["synced", "last"]:
            yield NEW
            yield from laid_out("open:256", TWENTY + ["reads", "put:00000007:1000*08", hindrance, "commit", "reads",
                                                      "get:00000007"])
            yield from ["restart:" + kind, "open:256 get:00000007 scan number"]
    yield from ["# What was written is read without a call", NEW]
    yield from laid_out("open:256", TWENTY + ["reads"] + GETS + ["reads"])
    yield "# What was read at opening is read without a call"
    yield from laid_out("open:256", GETS + ["reads"])
    yield "# With a cache of one page each look-up reads the root of the tree and a leaf"
    yield from laid_out("open:1", GETS + ["reads"])
    yield "# A tree on a device is found as it was committed, and not as it was changed after that"
    for writes in [0, 40]:
        for kind in ["synced", "last"]:
            yield "device:64:00:"
            committed = [put_of(number, 1) for number in range(100)]
            later = [put_of(number, 2) for number in range(50, 120)]
            yield from laid_out("open:256", committed + ["commit", "scan"] + later + ["stop:%d" % writes, "commit"])
            yield from ["restart:" + kind, "open:256 scan number"]


JOURNALED = "journaled:64:6669727374:76616c7565"  # the same as NEW, with a journal
AGAIN = "open:256 number scan record_format"


def put_each(first, count, size, byte):
    """Commits of a put each."""
    return [word for number in range(first, first + count) for word in ["put:%08x:%d*%02x" % (number, size, byte), "commit", "number"]]


def lines_of_journals():
    yield from ["", "# A store with a journal: of commits of one row six are records, and the seventh is made in the pages with them", JOURNALED]
    yield from laid_out("open:256", ["number"] + put_each(1, 9, 10, 7) + ["scan", "get:00000001", "get:00000009", "record_format"])
    yield from ["restart:synced", AGAIN, "open:1 scan get:00000009 get:0000000a"]
    yield from ["# Records of two parts and of three, a removal, and batches that change nothing", JOURNALED]
    yield from laid_out("open:1", ["put:61:600*07", "commit", "number", "get:61", "put:62:1200*08", "commit", "number", "remove:61", "commit",
                                   "number", "get:61", "scan", "remove:63", "commit", "number", "commit", "migrate", "number", "put:64:01",
                                   "migrate", "number", "record_format", "scan"])
    yield from ["restart:synced", AGAIN, "# A batch that is longer than the journal goes into the pages, with all that waits", JOURNALED]
    yield from laid_out("open:256", put_each(40, 2, 10, 7) + ["rise:0:20:400*07", "commit", "number", "put:00000003:09", "commit", "number", "scan"])
    yield from ["restart:synced", AGAIN]
    yield "# A stop within a record leaves what was there, under its number or the next; behind its last sector it leaves the record too"
    for size, writes in [(10, 0), (10, 3), (10, 4), (10, 8), (10, 9), (1200, 0), (1200, 3), (1200, 4), (1200, 5), (1200, 6), (1200, 9)]:
        for kind in ["synced", "last"]:
            yield from [JOURNALED, "open:256 put:61:07 commit put:62:%d*08 stop:%d commit get:61" % (size, writes), "restart:" + kind]
            yield from laid_out("open:256", ["number", "scan", "put:63:500*09", "commit", "number", "get:62"])
            yield from ["restart:synced", AGAIN]
    yield "# A call fails within a record, and behind it, and within a commit to the pages with two syncs and behind it"
    for calls, records in [(0, 0), (8, 0), (10, 0), (11, 0), (16, 0), (17, 0), (16, 6), (17, 6), (18, 6), (19, 6)]:
        yield JOURNALED
        first = put_each(1, records, 10, 7)
        yield from laid_out("open:256", first + ["put:00000001:10*08", "fail:%d" % calls, "commit", "commit"])
        yield from ["restart:last", AGAIN]


def sectors_of(parts):
    """Lines that write these parts, by their sectors from the first of the journal on."""
    return ["sector:%d:%s" % (JOURNAL_START + at, written(part) if part else "") for at, part in sorted(parts.items())]


FIRST_BATCH, LONG_BATCH, LAST_BATCH = {b"k": b"v1", b"z": None}, {b"k": b"l" * 600}, {b"first": None, b"m": b"3"}
ROOT = 12  # of the images, whose other root sector is that of number 1


def records(*numbered):
    """The parts of records of these numbers, one behind the other."""
    parts = {}
    for number, changes in numbered:
        data = record_of(changes)
        count = -(-len(data) // PART)
        for index in range(count):
            parts[len(parts)] = part_of(ROOT, number, index, count, data[index * PART:(index + 1) * PART])
    return parts


def images():
    """What stands in the sectors behind the roots, by what it is."""
    three = records((13, FIRST_BATCH), (14, LONG_BATCH), (15, LAST_BATCH))
    one, batch = records((13, FIRST_BATCH)), record_of(FIRST_BATCH)
    yield from [("no record", {}), ("one record", one), ("three records", three)]
    yield "numbers that are left out", records((13, FIRST_BATCH), (40, LONG_BATCH), (41, LAST_BATCH))
    yield "six records", records(*((13 + at, {b"k": bytes([at])}) for at in range(PARTS)))
    yield "a record of six parts", records((13, {b"k%d" % at: b"l" * 1100 for at in range(2)} | {b"l": b"l" * 450}))
    for at in (1, 2):
        yield "a record without its part %d" % (at - 1), {**{0: three[0], 1: three[1], 2: three[2]}, at: b""}
    yield "a record over one that was cut off", records((13, FIRST_BATCH), (15, LAST_BATCH)) | {2: part_of(ROOT, 14, 1, 2, batch)}
    yield "records of an earlier root", one | {at: part_of(11, 12 + at, 0, 1, batch) for at in (1, 2, 4)}
    yield "a record of an earlier root alone", {0: part_of(11, 12, 0, 1, batch)}
    yield "a later record of an earlier root", {0: part_of(11, 20, 0, 1, batch)}
    yield "a record whose number does not rise", records((14, FIRST_BATCH), (14, LAST_BATCH))
    yield "a record that is cut off where the journal ends", one | {1: part_of(ROOT, 14, 0, 2, batch)}
    yield "a record that would need a seventh sector", records(*((13 + at, {b"k": bytes([at])}) for at in range(5))) | {5: part_of(ROOT, 18, 0, 2, batch)}
    yield "parts of one number, and of two counts", one | {1: part_of(ROOT, 14, 0, 2, batch), 2: part_of(ROOT, 14, 1, 3, batch)}
    tags = {"root 0": (0, 14, 0, 1), "a later root": (13, 14, 0, 1), "no parts": (ROOT, 14, 0, 0), "more parts than sectors": (ROOT, 14, 0, 7),
            "an index past its parts": (ROOT, 14, 2, 2), "an index past its parts, of an earlier root": (11, 12, 1, 1)}
    for what, fields in tags.items():
        yield "a tag of " + what, one | {1: part_of(*fields, batch)}
    yield "a record behind a gap", one | {2: part_of(ROOT, 14, 0, 1, batch)}
    for at in (0, 1, 5):
        yield "another magic in sector %d" % (JOURNAL_START + at), one | {at: b"F" + part_of(ROOT, 13, 0, 1, batch)[1:]}
    yield "a sector of zeros with one other byte", one | {5: bytes(SECTOR - 1) + b"\1"}
    put = record_of({b"k": b"v"})
    spoiled = {"no kind of change": b"\3" + put[1:], "keys that fall": put + record_of({b"j": b"v"}), "one key twice": put * 2,
               "an empty key": record_of({b"": b"v"}), "a key too long": record_of({b"k" * 206: b"v"}),
               "a byte behind its zeros": put.ljust(PART - 1, b"\0") + b"\1", "no change": b"",
               "a value cut off": b"\1\0\1" + (1100).to_bytes(2, "big") + b"k" + b"v" * 400}
    for what, data in spoiled.items():
        yield "a record with " + what, {0: part_of(ROOT, 13, 0, 1, data)}
    yield "a value too long", {at: part_of(ROOT, 13, at, 3, record_of({b"k": b"v" * 1201})[at * PART:(at + 1) * PART]) for at in range(3)}
    yield "a part of zeros", {0: part_of(ROOT, 13, 0, 2, put), 1: part_of(ROOT, 13, 1, 2)}


def lines_of_images():
    yield from ["", "# Images of a device whose root has number 12, with these sectors behind the roots"]
    for what, parts in images():
        yield from ["# " + what, NEW, "sector:0:" + root_of(3, 64, ROOT, 2).hex(), *sectors_of(parts)]
        # What is opened takes a further commit.
        yield from ["open:256 number scan put:6b6b:07 commit number get:6b", "restart:synced", "open:1 number scan"]
    yield from ["# Under format 2 nobody reads these sectors", NEW, "sector:0:" + root_of(2, 64, ROOT, 2).hex()]
    yield from [*sectors_of(records((13, FIRST_BATCH))), "open:256 number scan"]
    yield from ["# The last number", NEW, "sector:0:" + root_of(3, 64, ROOT, 2).hex(), *sectors_of(records((2**64 - 1, FIRST_BATCH)))]
    yield "open:256 number scan"


def main():
    for line in lines():
        print(line)


if __name__ == "__main__":
    main()
