#!/usr/bin/env python3
"""A second reader of devices, which answers the lines of the part `images` as this crate's program is to.

It follows the description of the device and of the tree (docs/formats.md), shares nothing with the code, and is as plain and
slow as that is. tests/second_program.py hands it the lines, which are described at the head of src/images.rt.
"""
import functools
import zlib

PAGE, SECTOR = 4096, 512
MAGIC = b"GUARDDB1"
REASONS = {"opened": "", "WrongSize": "S", "NotADatabase": "N", "NewerFormat": "L", "Damaged": ".", "failed": "F"}


class Refused(Exception):
    pass


def need(holds, reason="Damaged"):
    if not holds:
        raise Refused(reason)


# The bytes of a part of the device, read from the left.
class Bytes:
    def __init__(self, data):
        self.data, self.at = data, 0

    def take(self, count):
        need(self.at + count <= len(self.data))
        self.at += count
        return self.data[self.at - count:self.at]

    def number(self, size):
        return int.from_bytes(self.take(size), "big")

    def end(self):
        need(not any(self.data[self.at:]))


# The root: N, its number, its map pages and its format. None is what a sector of zeros holds.
def root_in(sector, parity):
    if not any(sector):
        return None
    reader = Bytes(sector)
    need(reader.take(8) == MAGIC)
    form = reader.number(4)
    need(form in (1, 2, 3))
    pages, number = reader.number(4), reader.number(8)
    need(number >= 1 and number % 2 == parity)
    count = reader.number(4)
    need(1 <= count <= 64)
    map_pages = [reader.number(4) for _ in range(count)]
    reader.end()
    return pages, number, map_pages, form


def number_in(sector, at, size):
    return int.from_bytes(sector[at:at + size], "big")


# Whether a root sector begins as a root of a format above 3, and whether it holds a root of any format.
def begins_later(sector, parity):
    return sector.startswith(MAGIC) and number_in(sector, 8, 4) > 3 and number_in(sector, 16, 8) % 2 == parity


def holds_root(sector, parity):
    try:
        return begins_later(sector, parity) or root_in(sector, parity) is not None
    except Refused:
        return False


# The format of the root sector that begins so while the other holds no root of a greater number, or None.
def newer_format(sectors):
    for parity, sector in enumerate(sectors):
        other = sectors[1 - parity]
        is_older = not holds_root(other, 1 - parity) or number_in(other, 16, 8) < number_in(sector, 16, 8)
        if begins_later(sector, parity) and is_older:
            return number_in(sector, 8, 4)
    return None


def page_count(image):
    need(len(image) % PAGE == 0 and 64 <= len(image) // PAGE <= 65536, "WrongSize")
    return len(image) // PAGE


def deciding_root(image):
    pages = page_count(image)
    sectors = [bytes(image[:SECTOR]), bytes(image[SECTOR:2 * SECTOR])]
    need(any(sector.startswith(MAGIC) for sector in sectors), "NotADatabase")
    form = newer_format(sectors)
    need(form is None, f"NewerFormat({form})")
    roots = [root_in(sector, parity) for parity, sector in enumerate(sectors)]
    root = max((root for root in roots if root), key=lambda root: root[1])
    need(root[0] == pages, "WrongSize")
    return root


def page_at(image, page):
    need(page < len(image) // PAGE)
    return bytes(image[page * PAGE:(page + 1) * PAGE])


# The entries of all map pages.
def map_of(image, root):
    entries = [entry for page in root[2] for entry in entries_in(page_at(image, page))]
    check_reach(reach_of(root, entries), page_count(image))
    need(entries[0] != 0)
    need(root[3] != 3)  # with a journal, which these stores do not read
    return entries


# What a page holds is kept, since most pages are the same in most images.
@functools.lru_cache(maxsize=1000)
def entries_in(page):
    reader = Bytes(page)
    return [reader.number(4) for _ in range(1024)]


def reach_of(root, entries):
    return root[2] + [entry for entry in entries if entry != 0]


def check_reach(reach, pages):
    need(len(set(reach)) == len(reach))
    need(all(1 <= page < pages for page in reach))


# A leaf as its records, or an inner node as its children and keys.
@functools.lru_cache(maxsize=1000)
def node_in(page):
    reader = Bytes(page)
    kind, zero, count = reader.number(1), reader.number(1), reader.number(2)
    need(kind in (1, 2) and zero == 0)
    records, children, keys = (leaf if kind == 1 else inner)(reader, count)
    reader.end()
    need(all(before < after for before, after in zip(keys, keys[1:])))
    return records, children, keys


def leaf(reader, count):
    records = []
    for _ in range(count):
        key_length, value_length = reader.number(2), reader.number(2)
        need(value_length <= 1200)
        records.append((key_in(reader, key_length), reader.take(value_length)))
    return records, [], [key for key, _ in records]


def inner(reader, count):
    need(count >= 1)
    children, keys = [reader.number(4)], []
    for _ in range(count):
        key_length = reader.number(2)
        children.append(reader.number(4))
        keys.append(key_in(reader, key_length))
    return [], children, keys


def key_in(reader, length):
    need(1 <= length <= 205)
    return reader.take(length)


# The height of the tree under a logical page, and its records.
def tree_at(image, entries, met, page):
    need(page < len(entries) and entries[page] != 0)
    need(page not in met)
    met.add(page)
    records, children, keys = node_in(page_at(image, entries[page]))
    if not children:
        return 0, records
    below = [tree_at(image, entries, met, child) for child in children]
    check_below(keys, below)
    return below[0][0] + 1, [record for _, records in below for record in records]


def check_below(keys, below):
    need(all(height == below[0][0] for height, _ in below))
    need(all(records for _, records in below))
    for key, (_, before), (_, own) in zip(keys, below, below[1:]):
        need(all(other < key for other, _ in before))
        need(all(key <= other for other, _ in own))


def records_of(image):
    root = deciding_root(image)
    entries, met = map_of(image, root), set()
    _, records = tree_at(image, entries, met, 0)
    need(met == set(page for page, entry in enumerate(entries) if entry != 0))
    return records


def digest_of(records):
    digest = 1
    for key, value in records:
        lengths = len(key).to_bytes(8, "big") + len(value).to_bytes(8, "big")
        digest = zlib.adler32(lengths + key + value, digest)
    return "%08x" % digest


# The outcome of an image: how it is named, what a line of its own says, and what a line of many has.
def outcome(image):
    try:
        records = records_of(image)
    except Refused as refused:
        fault = str(refused)
        reason = fault.partition("(")[0]
        return reason, fault, REASONS[reason]
    digest = digest_of(records)
    return "opened", f"opened, {len(records)} records, {digest}", digest


# The images of one database.
class Images:
    def __init__(self, every):
        self.every, self.image, self.counts = every, bytearray(), dict.fromkeys(REASONS, 0)
        self.spans = set()

    def tried(self, image):
        reason, long, short = outcome(image)
        self.counts[reason] += 1
        return long, short

    def with_byte(self, at, value):
        kept, self.image[at] = self.image[at], value
        said = self.tried(self.image)
        self.image[at] = kept
        return said

    def with_length(self, length):
        return self.tried(self.image[:length] + bytes(max(0, length - len(self.image))))

    def with_zeros(self, start):
        return self.tried(self.image[:start] + bytes(SECTOR) + self.image[start + SECTOR:])

    def of_bytes(self, start, count):
        self.spans |= set(range(start // SECTOR, (start + count) // SECTOR))
        said = ""
        for at in range(start, start + count):
            for turn, value in enumerate(other_values(self.image[at])):
                if (3 * at + turn + 20160601) % self.every == 0:
                    said += self.with_byte(at, value)[1]
        return said

    def of_sectors(self):
        starts = range(0, len(self.image), SECTOR)
        return "".join(self.with_zeros(at)[1] for at in starts if any(self.image[at:at + SECTOR]))

    def sums(self):
        counts = [f"{count} {reason}" for reason, count in self.counts.items()]
        return ", ".join([f"{sum(self.counts.values())} images"] + counts)

    # The bytes to be changed are those of both root sectors and of each page in reach.
    def check_spans(self):
        root = deciding_root(self.image)
        pages = reach_of(root, map_of(self.image, root))
        assert self.spans == {0, 1} | {8 * page + sector for page in pages for sector in range(8)}


def other_values(byte):
    return (byte + 1) % 256, byte ^ 128, (byte - 1) % 256 if byte in (0, 128, 255) else 0


def answers(lines, tries_all=False):
    """What the lines come to; of the changes of bytes some are tried, or all of them."""
    for line in lines:
        word, _, rest = line.partition(" ")
        words = rest.split(" ", 2)
        if word == "database":
            every, _, name = rest.partition(" ")
            images = Images(1 if tries_all else int(every))
            yield name
        elif word == "put":
            images.image += bytes.fromhex(words[1]) * int(words[0])
        elif word == "byte":
            yield words[2] + ": " + images.with_byte(int(words[0]), int(words[1]))[0]
        elif word == "length":
            yield rest.partition(" ")[2] + ": " + images.with_length(int(words[0]))[0]
        elif word == "bytes":
            yield "bytes from " + words[0] + ": " + images.of_bytes(int(words[0]), int(words[1]))
        elif word == "sectors":
            yield "sectors, in turn: " + images.of_sectors()
        elif word == "sum":
            images.check_spans()
            yield rest + ": " + images.sums()
