#!/usr/bin/env python3
"""Arrays of pages on a device that fails, stops and starts again: a model of both, which answers the lines of the part `arrays` as
this crate's program is to.

tests/second_program.py hands it the lines, and python3 arrays.py makes them. The model follows the descriptions of the bytes
(docs/formats.md), of a commit (docs/map.md) and of such a device (docs/DECISIONS.md), and shares nothing with the code. The words
are described at the head of src/arrays.rt.
"""
import random

from images import newer_format

PAGE, SECTOR, MAGIC = 4096, 512, b"GUARDDB1"


class Failed(Exception):
    """Why a call fails, as it is printed."""


def number(value, size=4):
    return value.to_bytes(size, "big")


def numbers(data):
    return [int.from_bytes(data[at:at + 4], "big") for at in range(0, len(data), 4)]


def filled(tag):
    return b"".join(bytes([sector]) + bytes([tag]) * (SECTOR - 1) for sector in range(PAGE // SECTOR))


def printed(data):
    fours = ((at, data[at:at + 4]) for at in range(0, len(data), 4))
    return "".join(f" {at}:{four.hex()}" for at, four in fours if any(four))


def root_bytes(count, pages, maps, form=2):
    head = MAGIC + number(form) + number(pages) + number(count, 8) + number(len(maps))
    return (head + b"".join(map(number, maps))).ljust(SECTOR, b"\0")


def map_bytes(entries):
    data = bytearray(PAGE)
    for at, entry in entries.items():
        data[4 * at:4 * at + 4] = number(entry)
    return bytes(data)


class Device:
    """Sectors with their last contents and their synced ones, which differ where a stop may leave either."""

    def __init__(self, pages):
        self.sectors = 8 * pages
        self.last, self.synced = {}, {}
        self.failures = self.reads = self.writes = 0
        self.latest = 0
        self.pass_all()

    def pass_all(self):
        self.writes_left = self.calls_left = None
        self.late = False

    # Carries a call out, or makes it fail.
    def call(self, act, writes=False):
        if self.writes_left == 0:
            self.fail()
        if self.calls_left == 0:
            self.calls_left = None
            if self.late:
                act()
            self.fail()
        if self.calls_left is not None:
            self.calls_left -= 1
        if writes and self.writes_left is not None:
            self.writes_left -= 1
        return act()

    def fail(self):
        self.failures += 1
        raise Failed("D")

    def read(self, sector):
        content = self.call(lambda: self.last.get(sector, bytes(SECTOR)))
        self.reads += 1
        return content

    def write(self, sector, content):
        self.call(lambda: self.last.__setitem__(sector, content), True)
        self.writes, self.latest = self.writes + 1, sector

    def sync(self):
        self.call(lambda: self.synced.update(self.last))

    def read_page(self, page):
        return b"".join(self.read(8 * page + sector) for sector in range(8))

    def write_page(self, page, content):
        for sector in range(8):
            self.write(8 * page + sector, content[SECTOR * sector:SECTOR * (sector + 1)])

    def restart(self, is_new):
        for sector in set(self.last) | set(self.synced):
            left = self.last if is_new(sector) else self.synced
            content = left.get(sector, bytes(SECTOR))
            self.last[sector] = self.synced[sector] = content
        self.pass_all()

    # A new array: page 1 is its first page, page 2 its map, and the root comes last.
    def format(self, content):
        if not 64 <= self.sectors // 8 <= 65536:
            raise Failed("D")
        self.write(0, bytes(SECTOR))
        self.write_page(1, content)
        self.write_page(2, map_bytes({0: 1}))
        self.sync()
        self.write(1, root_bytes(1, self.sectors // 8, [2]))
        self.sync()


def need(holds, reason="Damaged"):
    if not holds:
        raise Failed(reason)


# The root that a root sector spells, or None where nothing was written.
def root_in(data, parity):
    if not any(data):
        return None
    fields = numbers(data)
    count, maps = int.from_bytes(data[16:24], "big"), fields[7:7 + fields[6]]
    need(data[:8] == MAGIC and fields[2] in (1, 2, 3) and count > 0 and count % 2 == parity)
    need(1 <= fields[6] <= 64 and not any(fields[7 + fields[6]:]))
    return count, fields[3], maps, fields[2]


class Array:
    """Logical pages on a device: what is durable, and the changes since, each in a physical page of its own."""

    def __init__(self, device):
        self.device, self.pages = device, device.sectors // 8
        need(device.sectors % 8 == 0 and 64 <= self.pages <= 65536, "WrongSize")
        device.sync()
        sectors = [device.read(0), device.read(1)]
        need(any(sector[:8] == MAGIC for sector in sectors), "NotADatabase")
        need(newer_format(sectors) is None, "NewerFormat")
        roots = [root_in(sector, parity) for parity, sector in enumerate(sectors)]
        self.number, pages, self.maps, self.form = max(root for root in roots if root)
        need(pages == self.pages, "WrongSize")
        need(all(1 <= page < self.pages for page in self.maps))
        entries = [entry for page in self.maps for entry in numbers(device.read_page(page))]
        self.durable = {at: entry for at, entry in enumerate(entries) if entry}
        reach = self.maps + list(self.durable.values())
        need(0 in self.durable and len(set(reach)) == len(reach) and max(reach) < self.pages)
        self.failed = False
        self.abandon()

    def abandon(self):
        self.working, self.changed, self.touched = dict(self.durable), {}, set()

    # Gives a changed page the least physical page that neither array needs.
    def place(self, page, content):
        physical = self.working.get(page)
        if page not in self.changed:
            physical = self.unused()
        self.working[page] = physical
        self.changed[page] = content
        self.touched.add(page // 1024)

    def unused(self):
        taken = set(self.maps) | set(self.durable.values()) | set(self.working.values()) | {0}
        for physical in range(self.pages):
            if physical not in taken:
                return physical
        raise Failed("F")

    def works(self):
        if self.failed:
            raise Failed("D")

    def used(self):
        return sorted(self.working)

    def in_use(self, page):
        self.works()
        need(page in self.working, "M")

    def read(self, page):
        self.in_use(page)
        return self.changed.get(page) or self.device.read_page(self.working[page])

    def write(self, page, content):
        self.in_use(page)
        self.place(page, content)

    def new(self, content):
        self.works()
        page = least_unused(self.working)
        self.place(page, content)
        return page

    def free(self, page):
        self.in_use(page)
        del self.working[page]
        self.changed.pop(page, None)
        self.touched.add(page // 1024)

    # Nothing is written where nothing has changed and the format stays.
    def commit(self, form):
        self.works()
        if self.touched or form not in (0, self.form):
            self.anew(form)

    # The changed pages are written, then the map pages that differ, and after a sync the root, in another format or the one that is there.
    def anew(self, form):
        self.works()
        form = form or self.form
        need(0 in self.working, "M")
        maps, taken = self.next_maps()
        try:
            self.write_all(maps, taken, form)
        except Failed:
            self.failed = True
            raise
        self.number, self.maps, self.durable, self.form = self.number + 1, maps, self.working, form
        self.abandon()

    # The map pages after this commit, and the entries of those that are written.
    def next_maps(self):
        count = max(self.working) // 1024 + 1
        maps, written = (self.maps + [None] * count)[:count], {}
        reach = set(self.maps) | set(self.durable.values()) | set(self.working.values()) | {0}
        free = (page for page in range(self.pages) if page not in reach)
        for at in range(count):
            if at in self.touched or maps[at] is None:
                maps[at] = next(free, None)
                need(maps[at] is not None, "F")
                written[maps[at]] = {page % 1024: physical for page, physical in self.working.items() if page // 1024 == at}
        return maps, written

    def write_all(self, maps, written, form):
        for page, content in sorted(self.changed.items()):
            self.device.write_page(self.working[page], content)
        for physical, entries in written.items():
            self.device.write_page(physical, map_bytes(entries))
        self.device.sync()
        root = root_bytes(self.number + 1, self.pages, maps, form)
        self.device.write((self.number + 1) % 2, root)
        self.device.sync()


def least_unused(pages):
    return next(page for page in range(len(pages) + 1) if page not in pages)


class Memory:
    """Pages without a device."""

    def __init__(self):
        self.pages = {}

    def used(self):
        return sorted(self.pages)

    def read(self, page):
        need(page in self.pages, "M")
        return self.pages[page]

    def write(self, page, content):
        self.read(page)
        self.pages[page] = content

    def new(self, content):
        page = least_unused(self.pages)
        self.pages[page] = content
        return page

    def free(self, page):
        self.read(page)
        del self.pages[page]


CHOICES = {
    "old": lambda at: lambda sector: False,
    "new": lambda at: lambda sector: True,
    "even": lambda at: lambda sector: sector % 2 == 0,
    "odd": lambda at: lambda sector: sector % 2 == 1,
    "only": lambda at: lambda sector: sector == at,
    "but": lambda at: lambda sector: sector != at,
    "drawn": lambda at: lambda sector: (at + sector) * 2654435769 % 2**32 // 65536 % 2 == 1,
}


class Case:
    """What the words of a line are said to."""

    def __init__(self, first, pages):
        self.device = Device(pages) if first == "device" else None
        self.array = None if self.device else Memory()

    def answer(self, text):
        name, *fields = text.split(":")
        values = [int(field) for field in fields] + [0] * 3
        if name in ("stop", "fail", "late", "failures", "reads"):
            return self.count_or_fail(name, values[0])
        try:
            if self.array:
                return self.array_word(name, *values[:2])
            return self.device_word(name, *values[:3])
        except Failed as reason:
            return f" {reason}"

    def count_or_fail(self, name, value):
        device = self.device
        if name in ("failures", "reads"):
            return f" {getattr(device, name)}"
        if name == "stop":
            device.writes_left = value
        else:
            device.calls_left, device.late = value, name == "late"
        return ""

    def array_word(self, name, first, second):
        array = self.array
        if name == "close":
            self.array = None
        elif name == "abandon":
            array.abandon()
        elif name == "number":
            return f" {array.number}"
        elif name == "version":
            return f" {array.form}"
        elif name == "read":
            return f" {array.read(first)[1]}"
        elif name == "all":
            return "".join(f" {page}={self.answer(f'read:{page}')}" for page in array.used())
        elif name == "new":
            return f" {array.new(filled(first))}"
        elif name == "fill":
            return self.fill(filled(first))
        else:
            arguments = {"write": [first, filled(second % 256)], "free": [first], "commit": [first], "anew": [first]}[name]
            getattr(array, name)(*arguments)
            return " ."
        return ""

    def fill(self, content):
        count = 0
        while True:
            try:
                self.array.new(content)
            except Failed as reason:
                return f" {count if str(reason) == 'F' else reason}"
            count += 1

    def device_word(self, name, first, second, third):
        device = self.device
        if name in CHOICES:
            device.restart(CHOICES[name](first))
            return ""
        if name == "open":
            self.array = Array(device)
            return f" {self.array.number}"
        if name == "all":
            return " ?"
        if name == "sector":
            return " ." + printed(device.read(first))
        if name == "byte":
            content = bytearray(device.read(first))
            content[second] = third
            device.write(first, bytes(content))
        else:
            arguments = {"format": [filled(first)], "put": [first, bytes([second]) * SECTOR], "sync": []}
            arguments["root"] = [first % 2, root_bytes(first, 64, [2])]
            getattr(device, {"put": "write", "root": "write"}.get(name, name))(*arguments[name])
        return " ."


def answers(lines):
    script = []
    for line in lines:
        first, *words = line.split()
        name, *fields = first.split(":")
        if name == "--":
            yield line
        elif name == "script":
            script = words
            yield ""
        elif name == "root":
            yield printed(root_bytes(int(fields[0]), int(fields[1]), [int(word) for word in words]))
        elif name == "map":
            yield printed(map_bytes({int(at): int(entry) for at, entry in (word.split(":") for word in words)}))
        else:
            case = Case(name, *(int(field) for field in fields or ["0"]))
            spelled = [part for word in words for part in (script if word == "script" else [word])]
            yield "".join(case.answer(word) for word in spelled)


# The lines

SCRIPT = ("write:0:1 new:2 new:3 commit new:5 write:1:6 write:1:7 free:2 commit write:1:10 new:11 free:0 abandon write:0:14 read:0 "
          "write:0:16 new:17 commit free:1 free:3 commit write:2:22 read:2 commit")
NINE = " ".join(["sector:0 put:0:0 sync"] * 3)
BEGUN = "device:64 format:255 open"


def devices():
    yield "-- A device stops after so many writes: then all calls fail, reads and syncs too."
    for writes in range(5):
        yield f"device:1 stop:{writes} {NINE} failures reads"
    yield "-- One call fails, and does nothing, or is carried out all the same. After a restart none fails."
    for kind in ("fail", "late"):
        for calls in range(10):
            yield f"device:1 {kind}:{calls} {NINE} failures {kind}:3 stop:1 new {NINE} failures"
    yield "-- What a stop leaves of a sector: what was synced, or what was written last."
    for choice in ("old", "new", "even", "odd", "only:3", "but:3", "drawn:7"):
        yield f"device:1 put:2:1 put:3:1 sync put:2:2 put:3:2 put:2:3 {choice} sector:2 sector:3"


def formatting():
    yield "-- A stop while an array is made leaves none, or its first page alone."
    for choice in ("old", "new", "even", "odd", "only:1", "but:1", "drawn:7"):
        for writes in range(20):
            yield f"device:64 stop:{writes} format:5 {choice} open all"
    yield "-- After all writes and before the last sync the root's sector alone decides."
    for sector in range(24):
        for choice in ("only", "but"):
            yield f"device:64 stop:18 format:5 {choice}:{sector} open all"
    yield "-- A call that fails while an array is made, and while it is opened: a sync, two roots and a map page."
    for kind in ("fail", "late"):
        for calls in range(20):
            yield f"device:64 {kind}:{calls} format:5 failures open all"
        for calls in range(12):
            yield f"device:64 format:5 {kind}:{calls} open failures"


def spellings():
    yield "-- Roots: the magic, the format, the pages, the number, and the map pages with their count."
    yield "root:1:64 2"
    yield "root:258:65536 3 65535 256"
    yield "root:1:65536 " + " ".join(["0"] * 63 + [str(0x01020304)])
    yield "-- A map page of two entries."
    yield f"map 1:{0x01020304} 1023:65535"
    yield "-- A new array: two root sectors, the first page and the map. The next commit writes the other root."
    yield "device:64 format:1 sector:0 sector:1 sector:7 sector:16 sector:24"
    yield "device:64 format:0 sector:8 sector:9 sector:15 open write:0:1 commit close sector:0 sector:1"
    yield "-- One byte makes an array another or none: magic, format, pages, number, the map's count and page, its entries, a page."
    for sector, at, byte in ((1, 7, 50), (0, 0, 1), (1, 11, 0), (1, 11, 1), (1, 11, 3), (1, 11, 9), (1, 8, 1), (1, 15, 65), (1, 23, 2), (1, 23, 3), (1, 27, 0), (1, 27, 65), (1, 31, 64),
                             (1, 511, 1), (16, 3, 0), (16, 3, 2), (16, 3, 64), (16, 7, 1), (16, 7, 3), (8, 0, 9)):
        yield f"device:64 format:5 byte:{sector}:{at}:{byte} open"
    yield "-- Devices of other sizes, and one of zeros."
    for pages in (0, 1, 63, 64):
        yield f"device:{pages} open"
    yield "-- A root that is written and not synced when the device is opened stays after a stop: opening syncs before it reads."
    yield f"{BEGUN} close root:2 open close old open"


def commits():
    yield "-- A stop after each write of five commits leaves the array before a commit or after it."
    yield f"script {SCRIPT}"
    choices = ("old", "new", "even", "odd", "only", "but", "drawn:3")
    for writes in range(111):
        case = Case("device", 64)
        for word in f"format:255 open stop:{writes} {SCRIPT}".split():
            case.answer(word)
        for choice in ("only", choices[writes % 7]):
            at = f":{case.device.latest}" if choice in ("only", "but") else ""
            yield f"{BEGUN} stop:{writes} script close {choice}{at} open all"
    yield "-- Each call of the commits fails: it is answered, and after it no call of the device is made (each would be counted)."
    for calls in range(120):
        for kind, choice in (("fail", "old"), ("late", "old"), ("late", "new"), ("fail", "new")):
            yield f"{BEGUN} {kind}:{calls} script stop:0 script failures close {choice} open all"


def formats():
    yield "-- A commit in another format writes a root where nothing else has changed, and none in the same format. A commit anew always does."
    first = "device:64 format:5 byte:1:11:1 open version number"
    yield f"{first} commit:1 number commit:2 version number commit:2 number close sector:0 sector:1 open version number all"
    yield f"{first} fail:0 commit:1 commit number failures"
    yield "device:64 format:5 open version number fail:0 commit:2 commit number failures"
    yield f"{first} anew:1 version number anew:2 version number anew version number write:0:3 anew:1 version number close old open version all"
    yield f"{first} commit:2 new:8 commit number write:1:9 commit:1 version number abandon close old open version number all"
    yield "-- The greater number decides which format is there, and each of the two roots has one."
    yield f"{first} commit:2 commit:1 close open version number"
    for byte in (0, 1, 2, 3):
        yield f"{first} commit:2 commit:1 close byte:0:11:{byte} open"
    yield "-- A stop within a commit in another format leaves the array before it or the one after it, each in its own format."
    for writes in range(19):
        for choice in ("old", "new", "even", "odd"):
            yield f"{first} write:0:7 stop:{writes} commit:2 close {choice} open version number all"
    for writes in range(2):
        for choice in ("old", "new"):
            yield f"{first} stop:{writes} commit:2 close {choice} open version number all"


def bounds():
    yield "-- A commit that fits follows one that does not: of 63 pages, the array of two and its map take three, and the new page 0 one."
    refused = "write:0:1 fill:2 write:1:3 commit abandon write:0:5 commit "
    yield f"{BEGUN} new:1 commit {refused * 5}number close old open all"
    yield "-- Commits without changes make no call; page 0 cannot be missing from one."
    yield f"{BEGUN} fail:0 commit free:0 commit abandon commit number failures"
    yield "-- More pages in one commit than wait in memory."
    yield "device:2000 format:0 open " + " ".join(f"new:{page % 251}" for page in range(1, 1501)) + " commit close old open all"


def calls():
    yield "-- Calls drawn at random, on pages in memory and on pages over a device."
    for begin, first in (("memory", "new:1"), ("device:64", "format:1 open")):
        drawn, used, words = random.Random(7), {0}, []
        for _ in range(600):
            page, tag = drawn.randrange(50), drawn.randrange(1, 256)
            name = drawn.choice(("new", "new", "new", "write", "write", "read", "read", "free"))
            if name == "new" and len(used) < 40:
                used.add(least_unused(used))
                words.append(f"new:{tag}")
            elif name != "new":
                words.append(f"{name}:{page}" + (f":{tag}" if name == "write" else ""))
            if name == "free":
                used.discard(page)
        yield f"{begin} {first} {' '.join(words)} all"


def main():
    for part in (devices, formatting, spellings, commits, formats, bounds, calls):
        print("\n".join(part()))


if __name__ == "__main__":
    main()
