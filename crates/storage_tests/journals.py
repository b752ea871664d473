#!/usr/bin/env python3
"""A second program, which answers the lines of the part `journals` as this crate's program is to.

tests/second_program.py hands it the lines, and python3 journals.py makes them. It shares nothing with the code, and keeps of a device
only how many commits it has, its root's number and where its records end (docs/formats.md). What it says beside that is what is promised:
that a record reads the first page, writes it with its parts, and syncs; that a commit to the pages writes a leaf, a map page, and, after
a sync, the root; that no record or commit is lost, and that none is half there. Where a journal is turned on or off, it keeps the formats of the two roots too.
Where a line asks for what nothing promises, it ends with an error. The lines are described at the head of src/journals.rt.
"""
import typing

PART = 488                  # of a record's bytes in a sector
FIRST, ROOM = 2, 6          # the sectors of a journal
LEAF = 4096 - 4             # of the cells of a leaf
PAGES = [8 * page + sector for page in (1, 2) for sector in range(8)]       # those of a leaf and a map page, or of other pages
FIRST_PAGE = list(range(8)) # which a write of sectors of the journal reads and writes
MOST_CHANGES = 12           # wait in a journal behind a tree of one leaf, for which a device of 64 pages has room


class Holding(typing.NamedTuple):
    """What a device has: how many commits, its root's number, how many sectors the records behind it take, and their changes."""
    made: int = 0
    root: int = 1
    end: int = 0
    waiting: int = 0


def length_of(text):
    """How many bytes a text writes, in parts with pluses between them."""
    return sum(int(part.split("*")[0]) if "*" in part else len(part) // 2 for part in text.split("+"))


class Script:
    """Of each batch how many changes and parts it has, and the steps. All records have room in one leaf."""

    def __init__(self, words):
        self.batches, changes, cells = [], {}, {}
        self.turns = [word for word in words if word in ("commit", "on", "off")]
        for word in words:
            name, *arguments = word.split(":")
            if name in ("on", "off"):
                assert not changes
            elif name == "commit":
                cells |= {key: 4 + length + (value or 0) for key, (length, value) in changes.items()}
                assert sum(cells.values()) <= LEAF - 9, "nothing promises what a tree of several leaves writes"
                size = sum(3 + key if value is None else 5 + key + value for key, value in changes.values())
                self.batches.append((len(changes), -(-size // PART)))
                changes = {}
            else:
                changes[arguments[0]] = length_of(arguments[0]), length_of(arguments[1]) if name == "put" else None
                assert name in ("put", "remove")

    def steps(self, holding):
        """The sectors that the next commit writes, those before each sync together, what the device has after it, and the sectors
        that make it whole."""
        if holding.made >= len(self.batches):
            return [], holding._replace(made=holding.made + 1), []
        changes, parts = self.batches[holding.made]
        made, waiting = holding.made + 1, holding.waiting + changes
        if holding.end + parts <= ROOM:
            assert waiting <= MOST_CHANGES, "nothing promises a record"
            first = FIRST + holding.end
            after = holding._replace(made=made, end=holding.end + parts, waiting=waiting)
            return [FIRST_PAGE], after, list(range(first, first + parts))
        root = holding.root + 1
        return [PAGES, [root % 2]], Holding(made, root), [root % 2]


CHOICES = [lambda sector: False, lambda sector: True, lambda sector: sector % 2 == 0, lambda sector: sector % 2 == 1]


def choices_for(unsynced):
    """The choices of those sectors that are new after a stop."""
    return CHOICES + [lambda sector, one=one: sector == one for one in unsynced] if unsynced else CHOICES[:1]


def unsynced_after(steps, writes):
    """The sectors that are not synced where the device stops after so many writes, whether the commit is made whole, and how many
    syncs there were."""
    for syncs, sectors in enumerate(steps):
        if writes <= len(sectors):
            return sectors[:writes], False, syncs
        writes -= len(sectors)
    return [], True, len(steps)


def left_after(steps, before, after, whole, unsynced, syncs, is_new):
    """What the device has after such a stop: the sectors that make a commit whole decide, if all of them are there. The others that
    are written with them are as they were."""
    if syncs == len(steps):
        return after
    is_last = syncs == len(steps) - 1
    return after if is_last and all(sector in unsynced and is_new(sector) for sector in whole) else before


class Stops:
    def __init__(self, script, lives, every):
        self.script, self.lives, self.every = script, lives, every
        self.stops = self.restarts = self.followed = 0
        self.waiting = []

    def answer(self):
        for index in range(len(self.script.batches)):
            self.stop_at(Holding(), 0, index)
            while self.waiting:
                self.live(*self.waiting.pop())
        return f"{self.stops} stops, {self.restarts} restarts, 0 disagreements"

    def stop_at(self, holding, life, index):
        while holding.made < index:
            _, holding, _ = self.script.steps(holding)
        steps, after, whole = self.script.steps(holding)
        is_whole, writes = False, 0
        while not is_whole:
            unsynced, is_whole, syncs = unsynced_after(steps, writes)
            self.stops, writes = self.stops + 1, writes + 1
            for is_new in choices_for(unsynced):
                self.waiting.append((left_after(steps, holding, after, whole, unsynced, syncs, is_new), life + 1))

    def live(self, holding, life):
        self.restarts += 1
        if life < self.lives:
            self.followed += 1
            if self.followed % self.every == 0:
                self.stop_at(holding, life, holding.made)


class Kind(typing.NamedTuple):
    """What a device has, the format of its root, and that of the other root sector, 0 where that is empty."""
    holding: Holding = Holding()
    form: int = 2
    other: int = 0


def committed(script, kind):
    """What a device has after the next commit."""
    if kind.form == 2:
        return Kind(Holding(kind.holding.made + 1, kind.holding.root + 1), 2, 2)
    _, holding, _ = script.steps(kind.holding)
    return Kind(holding, 3, kind.other if holding.root == kind.holding.root else 3)


def under(kind, root, form):
    """A device under another root: what waits is in its pages."""
    return Kind(Holding(kind.holding.made, root), form, kind.form)


def turned(kind, word):
    """The sectors that turning a journal on or off writes, those before each sync together, and what the device has once these are
    there. `on` writes the first page with zeros in place of the journal, and then the next root says that there is one. `off` brings what waits to the
    pages under the next root; the one after that says that there is no journal, and the sector of the one before it becomes empty."""
    root = kind.holding.root + 1
    if word == "on" and kind.form == 2:
        return [(FIRST_PAGE, kind), ([], kind), ([root % 2], under(kind, root, 3))]
    if word == "off" and kind.form == 3:
        pages, off = under(kind, root, 3), under(under(kind, root, 3), root + 1, 2)
        return [(PAGES if kind.holding.end else [], kind), ([root % 2], pages), ([], pages), ([(root + 1) % 2], off),
                ([root % 2], off._replace(other=0))]
    return [([root % 2], kind._replace(other=0))] if word == "off" and kind.other == 3 else [([], kind)]


class Switches:
    def __init__(self, script, every):
        self.script, self.every = script, every
        self.restarts = {2: 0, 3: 0}

    def answer(self):
        kind, followed = Kind(), 0
        for word in self.script.turns:
            for left in self.stop_each(kind, word) if word != "commit" else []:
                followed += 1
                if followed % self.every == 0:
                    self.stop_each(left, word)
            kind = committed(self.script, kind) if word == "commit" else turned(kind, word)[-1][1]
        return f"{self.restarts[3]} restarts with a journal, {self.restarts[2]} restarts without one, 0 disagreements"

    def stop_each(self, kind, word):
        """What is left by a stop after each count of writes, and by each choice."""
        steps = turned(kind, word)
        is_whole, writes, found = False, 0, []
        while not is_whole:
            unsynced, is_whole, syncs = unsynced_after([sectors for sectors, _ in steps], writes)
            kinds, writes = [kind, *(after for _, after in steps)], writes + 1
            for is_new in choices_for(unsynced):
                is_there = not is_whole and len(unsynced) == len(steps[syncs][0]) and all(map(is_new, unsynced))
                found.append(kinds[syncs + is_there])
                self.restarts[found[-1].form] += 1
        return found


def failing(script):
    """Each call of a commit fails, carried out or not. Then the device is opened as it is, and by each choice."""
    calls = devices = 0
    holding = Holding()
    for _ in script.batches:
        steps, holding, _ = script.steps(holding)
        for sectors in steps:
            reads = len(sectors) if sectors == FIRST_PAGE else 0
            for unsynced in [0] * reads + list(range(len(sectors) + 1)):        # a read, or so many writes, and then a write or the sync
                calls += 2
                devices += 2 * (1 + len(choices_for(sectors[:unsynced])))
    return f"{calls} failing calls, {devices} devices, 0 disagreements"


def counted(script):
    writes = syncs = 0
    holding = Holding()
    for _ in script.batches:
        steps, holding, _ = script.steps(holding)
        writes, syncs = writes + sum(map(len, steps)), syncs + len(steps)
    return f"{writes} sectors, {syncs} syncs, 0 disagreements"


def answer_to(line, tries_all):
    first, *words = line.split(" ")
    name, *numbers = first.split(":")
    if name == "full":
        return "full 0 times where the other is not, all that was taken is there: true"
    if words[0] == "uncounted":
        assert name in ("stops", "fails", "openings", "switches", "failing_switches")
        return "0 disagreements"
    script = Script(words)
    if name == "stops":
        return Stops(script, int(numbers[1]), 1 if tries_all else int(numbers[2])).answer()
    if name == "switches":
        return Switches(script, 1 if tries_all else int(numbers[1])).answer()
    if name == "again":
        return f"{len(script.turns)} steps, 1 looks, 0 disagreements"
    assert name == "counts" or name == "fails" and numbers[0] != "1", "nothing promises what is counted"
    return counted(script) if name == "counts" else failing(script)


def answers(lines, tries_all=False):
    for line in lines:
        if line.startswith("#"):
            yield line
        elif line:
            yield f"{line.split(' ')[0]}: {answer_to(line, tries_all)}"


# ---- the lines

def puts(sizes):
    """Commits of a put each, of values of these sizes."""
    return " ".join(f"put:{0x61 + at:02x}:{size}*{7 + at:02x} commit" for at, size in enumerate(sizes))


ROWS = puts([1] * 9)                            # six records, the pages, and two records
LONG = puts([1, 700, 1, 1200, 1, 600, 1])       # of one part, of two and of three
MIXED = ("put:61:07 put:62:600*07 commit remove:61 put:63:08 commit put:62:01 remove:63 put:64:09 commit remove:62 remove:64 commit "
         "put:61:0a commit put:65:900*0b commit put:65:0c commit")
# A tree of some leaves, of which rows that lie apart are changed.
FILLED = "rise:0:14:300*07 commit " + " ".join(f"put:{2 * row:08x}:300*{8 + row:02x} commit" for row in range(7))
SPLIT = "rise:0:24:150*07 commit put:00000003:1000*08 commit remove:00000003 commit rise:24:26:150*08 commit"
# A journal is turned on and off, twice too, with records that wait in it and without.
SWITCHED = "put:61:07 commit on on put:62:08 commit put:63:900*09 commit off off put:64:01 commit on off off"
AFTER_PAGES = f"on {ROWS} off put:61:2*01 commit on"
SWITCHED_TREE = "rise:0:14:300*07 commit on put:00000003:300*08 commit off"
MANY = " ".join(f"put:{row % 7 + 0x61:02x}:{row % 251:02x} commit" for row in range(700))


def lines():
    yield "# What commits of one row write: six records, each with the first page and one sync, and then the pages with two"
    yield from [f"counts:256 {ROWS}", f"counts:256 {LONG}", f"counts:1 {MIXED}", f"counts:256 {MANY}"]
    yield "# Stops, up to three lives deep, with a cache of all pages and with one of one page"
    yield from [f"stops:256:3:151 {ROWS}", f"stops:1:1:1 {ROWS}", f"stops:256:2:211 {LONG}", f"stops:1:3:173 {MIXED}"]
    yield "# The same over trees of several leaves"
    yield from [f"stops:256:1:1 uncounted {FILLED}", f"stops:1:1:1 uncounted {SPLIT}"]
    yield "# Calls that fail"
    yield from [f"fails:256 {ROWS}", f"fails:256 {LONG}", f"fails:1 uncounted {MIXED}", f"fails:1 uncounted {SPLIT}"]
    yield from [f"openings:256 uncounted {ROWS}", f"openings:1 uncounted {MIXED}"]
    yield "# A journal is turned on and off: stops, and calls that fail"
    yield from [f"switches:256:200 {SWITCHED}", f"switches:1:300 {AFTER_PAGES}", f"switches:1:500 uncounted {SWITCHED_TREE}"]
    yield f"failing_switches:1 uncounted {SWITCHED_TREE}"
    yield "# A full device: rows of 200 bytes and of others"
    yield from ["full:200:200", "full:40:20", "full:40:1200"]
    yield "# What is refused memory is made again: commits, openings, and a journal that is turned on and off"
    yield from [f"again:256 {LONG}", f"again:1 {MIXED}", f"again:256 {SWITCHED}"]


def main():
    for line in lines():
        print(line)


if __name__ == "__main__":
    main()
