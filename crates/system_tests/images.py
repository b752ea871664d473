#!/usr/bin/env python3
"""Writes devices of 64 pages, among them of format 1, and what comes of opening each: python3 images.py FOLDER

Of each the file NAME.image has the bytes and what is asked then, as the head of src/migrations.rt tells, and NAME.opened has what
the program of this crate is to print of it. Without a folder the files of data/ are compared with them. The bytes follow the
description of devices (docs/formats.md), each record spelled in the format that its root names; the databases, their answers and
their records are those of scripts/model.py. Nothing here comes from the program. What is taken for granted of room: a migration
takes a free page for each leaf with descriptors and one for the map, and no more than two for a leaf and one for a page above.
"""
import filecmp
import os
import re
import sys
import tempfile
import zlib

HERE = os.path.dirname(os.path.abspath(__file__))
DATA = os.path.join(HERE, 'data')
sys.path.insert(0, os.path.join(HERE, '..', '..', 'scripts'))
sys.dont_write_bytecode = True
import model

PAGE, SECTOR, PAGES = 4096, 512, 64
ROOM = PAGE - 4         # of the cells of a node
MAGIC = b'GUARDDB1'
JOURNAL_START, JOURNAL_ROOM = 2, 6      # sectors
JOURNAL_MAGIC = b'GDBJ'
PART = SECTOR - 24      # of a record's bytes behind a tag
LAST_NUMBER = 2**64 - 1
ATTRIBUTES = ['SUPERUSER', 'LOGIN', 'BYPASSRLS']


# ---- records

def number(value, size):
    return value.to_bytes(size, 'big')


def ended(name):
    return name.encode() + b'\0'


def bits(*values):
    return bytes([sum(2**at for at, value in enumerate(values) if value)])


def records_of(db, form):
    """The records of a database in the order of their keys, spelled in a format."""
    found = {b'\1' + name.encode(): bits(*(word in has for word in ATTRIBUTES)) for name, has in db.roles.items()}
    found |= {b'\2' + ended(role) + ended(member): bits(option) for (role, member), option in db.memberships.items()}
    numbers = {name: 7 * at + 1 for at, name in enumerate(db.tables)}
    for name, table in db.tables.items():
        found[b'\3' + name.encode()] = table_value(numbers[name], table)
        found |= {b'\5' + number(numbers[name], 4) + policy.encode(): policy_value(of) for policy, of in table.policies.items()}
        found |= {b'\6' + number(numbers[name], 4) + key: value for key, value in (row_parts(table, row) for row in table.rows)}
    for (grantor, grantee, name, action, column), option in db.descriptors.items():
        place = 0 if column is None else column + 1
        assert form == 2 or place == 0
        found[descriptor_key(numbers[name], grantor, grantee, action, b'' if form == 1 else number(place, 1))] = bits(option)
    return sorted(found.items())


def descriptor_key(table, grantor, grantee, action, place):
    names = [b'\0' if who in (model.SYSTEM, model.PUBLIC) else ended(who) for who in (grantor, grantee)]
    return b'\4' + number(table, 4) + action_byte(action) + place + b''.join(names)


def action_byte(action):
    return bytes([['ALL', 'SELECT', 'INSERT', 'UPDATE', 'DELETE'].index(action)])


def type_byte(kind):
    return bytes([['number', 'text', 'bool'].index(kind) + 1])


def table_value(table_number, table):
    columns = b''.join(ended(name) + type_byte(kind) + bits(not_null) for name, kind, not_null in table.columns)
    key = bytes([len(table.key), *table.key])
    head = number(table_number, 4) + ended(table.owner) + bits(table.security, table.forced)
    return head + bytes([len(table.columns)]) + columns + key


def policy_value(policy):
    to = b'\0' if policy['to'] == [model.PUBLIC] else bytes([len(policy['to'])]) + b''.join(map(ended, policy['to']))
    conditions = condition(policy['using']) + condition(policy['check'])
    return bytes([1 if policy['permissive'] else 2]) + action_byte(policy['for']) + to + conditions


def condition(clause):
    return b'\0' if clause is None else b'\1' + number(len(clause[1].encode()), 2) + clause[1].encode()


def row_parts(table, row):
    key = b''.join(key_part(row[at]) for at in table.key)
    return key, b''.join(value_part(value) for at, value in enumerate(row) if at not in table.key)


def key_part(value):
    if isinstance(value, bool):
        return bits(value)
    return ended(value) if isinstance(value, str) else number(value + 2**63, 8)


def value_part(value):
    if value is None:
        return b'\0'
    if isinstance(value, bool):
        return b'\4' if value else b'\3'
    return b'\2' + number(len(value.encode()), 2) + value.encode() if isinstance(value, str) else b'\1' + number(value % 2**64, 8)


def told_of(records):
    """How many bytes there are, of each key and each value behind its length in eight bytes, and their Adler-32 digest."""
    data = b''.join(number(len(part), 8) + part for record in records for part in record)
    return f'{len(data)} bytes of records, {zlib.adler32(data):08x}'


# ---- devices

def cell_of(key, value):
    return number(len(key), 2) + number(len(value), 2) + key + value


def node(kind, count, payload):
    assert len(payload) <= ROOM
    return (bytes([kind, 0]) + number(count, 2) + payload).ljust(PAGE, b'\0')


def leaves_of(records, fill):
    """The records of each leaf: no leaf has more bytes of cells than this."""
    leaves, size = [[]], 0
    for record in records:
        if leaves[-1] and size + len(cell_of(*record)) > fill:
            leaves.append([])
            size = 0
        leaves[-1].append(record)
        size += len(cell_of(*record))
    return leaves


def tree_of(records, fill=ROOM):
    """The pages of a tree, its root first: one leaf, or an inner node above leaves."""
    leaves = leaves_of(records, fill)
    pages = [node(1, len(leaf), b''.join(cell_of(*record) for record in leaf)) for leaf in leaves]
    if len(pages) == 1:
        return pages
    keys = [separator(before[-1][0], leaf[0][0]) for before, leaf in zip(leaves, leaves[1:])]
    cells = b''.join(number(len(key), 2) + number(at, 4) + key for at, key in enumerate(keys, 2))
    return [node(2, len(keys), number(1, 4) + cells), *pages]


def separator(before, own):
    """The shortest beginning of a key that is greater than the one before it."""
    return next(own[:end] for end in range(1, len(own) + 1) if own[:end] > before)


class Device:
    """The bytes of a device."""

    def __init__(self):
        self.image = bytearray(PAGES * PAGE)

    def put_root(self, form, count, map_page):
        fields = [number(form, 4), number(PAGES, 4), number(count, 8), number(1, 4), number(map_page, 4)]
        self.put(SECTOR * (count % 2), (MAGIC + b''.join(fields)).ljust(SECTOR, b'\0'))

    def put(self, at, data):
        self.image[at:at + len(data)] = data

    def put_store(self, form, count, records, first, fill=ROOM):
        """A root and what it names: the map page, and behind it the pages of the tree in another order. How many they are."""
        pages = tree_of(records, fill)
        places = [first + 1 + (at * 5 + 3) % len(pages) if len(pages) % 5 else first + 1 + at for at in range(len(pages))]
        assert len(set(places)) == len(pages) and max(places) < PAGES
        for place, page in zip(places, pages):
            self.put(PAGE * place, page)
        self.put(PAGE * first, b''.join(number(place, 4) for place in places).ljust(PAGE, b'\0'))
        self.put_root(form, count, first)
        return 1 + len(pages)


def tag(root, count, index, parts):
    return JOURNAL_MAGIC + number(root, 8) + number(count, 8) + number(index, 2) + number(parts, 2)


def batch_of(old, new):
    """The bytes of the changes that lead from records to others, in the order of their keys."""
    before, after = dict(old), dict(new)
    return b''.join(change_of(key, after.get(key)) for key in sorted(before.keys() | after.keys()) if before.get(key) != after.get(key))


def change_of(key, value):
    if value is None:
        return b'\2' + number(len(key), 2) + key
    return b'\1' + number(len(key), 2) + number(len(value), 2) + key + value


def parts_of(batch):
    """The bytes of a batch in parts, the last of which has zeros to its end."""
    return [batch[at:at + PART].ljust(PART, b'\0') for at in range(0, len(batch), PART)]


class Journal:
    """The sectors of a journal, by their places from 0 on, behind a root of this number."""

    def __init__(self, root):
        self.root, self.end, self.sectors = root, 0, {}

    def put(self, at, root, count, index, parts, part=bytes(PART)):
        self.sectors[at] = tag(root, count, index, parts) + part

    def append(self, count, batch):
        """A record of this number. How many parts it has."""
        parts = parts_of(batch)
        for index, part in enumerate(parts):
            self.put(self.end + index, self.root, count, index, len(parts), part)
        self.end += len(parts)
        assert self.end <= JOURNAL_ROOM
        return len(parts)

    def lines(self):
        """The lines that put its sectors in the place of those that a device has."""
        return [f'at {SECTOR * (JOURNAL_START + at)} {sector.hex(" ")}' for at, sector in sorted(self.sectors.items())]


def lines_of(image):
    """The lines that put the bytes of a device: runs of a byte, and the bytes between them."""
    data = bytes(image).rstrip(b'\0')
    for run in re.finditer(rb'(?s)(.)\1{9,}|(?:(?!(.)\2{9}).)+', data):
        part = run[0]
        if run[1]:
            yield f'put {len(part)} {part[0]:02x}'
        else:
            yield from (f'put 1 {part[at:at + 128].hex(" ")}' for at in range(0, len(part), 128))


# ---- databases

def database(script):
    """The database after a script, all of whose statements are carried out."""
    server = model.Server('root')
    for answer in play(server, script):
        assert answer.startswith('ok '), answer
    return server.committed


def play(server, script):
    """The answers to the lines of a script."""
    numbers = {}
    for line in script:
        if line.startswith('open '):
            _, name, login = line.split(' ')
            numbers[name] = len(numbers) + 1
            yield server.open(numbers[name], login)
        else:
            name, text = line.split(': ', 1)
            yield server.execute(numbers[name], text)


def answers_over(db, asked):
    server = model.Server('root')
    server.committed = db.copy()
    return list(play(server, asked))


ROLES = ['open r root', *(f'r: CREATE ROLE {name} LOGIN' for name in ('ann', 'bob', 'cid', 'dan'))]
SESSIONS = ['open a ann', 'open b bob', 'open c cid', 'open d dan']
# ann owns t and grants on it to bob, bob to cid, cid to dan, and ann to PUBLIC. The option to SELECT comes to cid by two ways.
GRANTS = [*ROLES, *SESSIONS,
          'r: CREATE ROLE staff', 'r: GRANT staff TO bob WITH ADMIN OPTION', 'r: GRANT staff TO cid',
          'a: CREATE TABLE t (k BIGINT PRIMARY KEY, x BIGINT, o TEXT)',
          "a: INSERT INTO t VALUES (-1, NULL, 'bob'), (2, 20, 'cid'), (3, 30, '')",
          'a: GRANT SELECT, UPDATE ON t TO bob WITH GRANT OPTION', 'a: GRANT SELECT ON t TO staff WITH GRANT OPTION',
          'b: GRANT SELECT ON t TO cid WITH GRANT OPTION', 'b: GRANT UPDATE ON t TO cid', 'c: GRANT SELECT ON t TO dan',
          'a: GRANT DELETE ON t TO PUBLIC', 'a: ALTER TABLE t ENABLE ROW LEVEL SECURITY',
          'a: CREATE POLICY own ON t USING (o = current_user OR current_user = \'ann\')',
          'a: CREATE POLICY small ON t AS RESTRICTIVE FOR SELECT TO cid, dan USING (k < 3)',
          'b: CREATE TABLE u (v TEXT, w BOOLEAN, PRIMARY KEY (v, w))', "b: INSERT INTO u VALUES ('é', true), ('', false)",
          'b: GRANT ALL ON u TO ann', 'b: GRANT INSERT ON u TO dan WITH GRANT OPTION', 'd: GRANT INSERT ON u TO PUBLIC']
ASKED = [*SESSIONS, 'a: SELECT * FROM t', 'b: SELECT * FROM t', 'c: SELECT * FROM t', 'd: SELECT * FROM t',
         'd: UPDATE t SET x = 1', 'c: UPDATE t SET x = x + 1', 'd: DELETE FROM t', "d: INSERT INTO u VALUES ('d', true)",
         "c: INSERT INTO u VALUES ('c', true)", 'a: SELECT * FROM u', 'd: GRANT SELECT ON t TO PUBLIC',
         'c: GRANT SELECT ON t TO PUBLIC', 'a: REVOKE SELECT ON t FROM bob', 'a: REVOKE SELECT ON t FROM bob CASCADE',
         'd: SELECT * FROM t', 'c: SELECT count(*) FROM t', 'b: SELECT count(*) FROM t', 'b: GRANT UPDATE ON t TO dan',
         'd: SELECT k FROM t', 'd: UPDATE t SET x = 1', 'a: DROP TABLE t', 'b: DROP TABLE u']
NO_TABLE = [*ROLES, 'r: GRANT ann TO bob WITH ADMIN OPTION']


def many_grants(tables, roles, length):
    """Tables of a role, each of whose privileges is granted to so many others. Their names have this length."""
    names = [f'r{at:02}'.ljust(length, 'n') for at in range(roles + 1)]
    yield from ['open r root', *(f'r: CREATE ROLE {name} LOGIN' for name in names), f'open o {names[0]}']
    for table in range(tables):
        yield f'o: CREATE TABLE t{table} (k BIGINT PRIMARY KEY)'
        yield f'o: GRANT ALL ON t{table} TO ' + ', '.join(names[1:]) + ' WITH GRANT OPTION'


def many_rows(rows):
    yield from [*ROLES, 'r: CREATE TABLE big (k BIGINT PRIMARY KEY, v TEXT)', 'r: GRANT SELECT ON big TO ann WITH GRANT OPTION']
    yield from (f"r: INSERT INTO big VALUES ({at}, '{'x' * 1190}')" for at in range(rows))


# ---- the images

class Images:
    """Writes the files of each image."""

    def __init__(self, folder):
        self.folder = folder

    def write(self, name, ending, lines):
        with open(os.path.join(self.folder, name + ending), 'w', encoding='utf-8', newline='') as file:
            file.write(''.join(line + '\n' for line in lines))

    def opens(self, name, lines, db, form, count, asked=(), refused=()):
        """An image that is opened, and of format 2 then, of the next number, where it was of format 1. Of what is asked after the
        rest each line has the code that refuses it."""
        records, is_first = records_of(db, 2), form == 1
        self.write(name, '.image', [*lines, *(f'ask {line}' for line in [*asked, *(line for line, _ in refused)])])
        openings = ['opened, other bytes' if is_first else 'opened, the same bytes', 'opened, the same bytes']
        told = f'number {count + is_first}, format {max(form, 2)}, {told_of(records)}'
        self.write(name, '.opened', [*openings, told, *answers_over(db, asked), *(f'refused {code}' for _, code in refused)])

    def is_refused(self, name, lines, why):
        """An image that is refused for this reason each time, and not written."""
        self.write(name, '.image', lines)
        self.write(name, '.opened', [why + ', the same bytes'] * 2)


def byte_line(at, value):
    return f'at {at} {value:02x}'


def device_of_grants(db, form):
    """A device with a database of this format, and a root of an earlier commit."""
    device = Device()
    device.put_root(form, 11, 40)
    device.put(PAGE * 40, number(41, 4))
    device.put_store(form, 12, records_of(db, min(form, 2)), 20)
    return device


def write_databases(images):
    """Databases of format 1 and 2, and those of format 1 whose openings are stopped."""
    db, empty = database(GRANTS), database(NO_TABLE)
    for form in (1, 2):
        device = device_of_grants(db, form)
        images.opens(f'grants_of_format_{form}', [*lines_of(device.image), *['stop'] * (form == 1)], db, form, 12, ASKED)
        device = Device()
        device.put_store(form, 1, records_of(empty, form), 2)
        images.opens(f'roles_of_format_{form}', [*lines_of(device.image), *['stop'] * (form == 1)], empty, form, 1)
    for name, tables, roles, length, leaves in (('full_leaf', 7, 5, 5, 1), ('full_leaves', 14, 10, 5, 3)):
        db, device = database(many_grants(tables, roles, length)), Device()
        records = records_of(db, 1)
        for leaf in leaves_of(records, ROOM)[:leaves]:
            assert sum(len(cell_of(*record)) + (record[0][0] == 4) for record in leaf) > ROOM
        device.put_store(1, 7, records, 5)
        images.opens(name, lines_of(device.image), db, 1, 7,
                     ['open o r02'.ljust(length + 7, 'n'), 'o: SELECT * FROM t1', 'o: DROP TABLE t1'])


def write_formats(images):
    """A byte of the format, over records of either format, with tables and without one."""
    newer, older = 11, SECTOR + 11
    for form in (1, 2):
        grants = f'from grants_of_format_{form}'
        for byte in {0, 1, 2, 3, 9} - {form}:
            lines = [grants, byte_line(newer, byte)]
            if (form, byte) == (2, 3):
                images.opens('format_3_over_format_2', lines, database(GRANTS), 3, 12, ASKED)
            else:
                images.is_refused(f'format_{byte}_over_format_{form}', lines, 'Format' if byte > 3 else 'Damaged')
        images.is_refused(f'older_root_of_format_9_beside_format_{form}', [grants, byte_line(older, 9)], 'Damaged')
    empty = database(NO_TABLE)
    images.opens('format_1_over_roles', ['from roles_of_format_2', byte_line(SECTOR + 11, 1)], empty, 1, 1)
    images.opens('format_2_over_roles', ['from roles_of_format_1', byte_line(SECTOR + 11, 2)], empty, 2, 1)


def write_roots(images):
    """Two roots, each with pages of its own: the greater number decides, and with it its format."""
    old, new = database(GRANTS[:-3]), database(GRANTS)
    for older in (1, 2):
        for newer in (1, 2):
            for count in (30, 31):
                device = Device()
                device.put_store(older, count - 1, records_of(old, older), 3, 900)
                device.put_store(newer, count, records_of(new, newer), 33, 1200)
                name = f'formats_{older}_and_{newer}_at_{count}'
                images.opens(name, lines_of(device.image), new, newer, count, ASKED if count == 30 else ())


def write_numbers(images):
    db = database(GRANTS)
    for form in (1, 2):
        device = Device()
        device.put_store(form, LAST_NUMBER, records_of(db, form), 9)
        lines = list(lines_of(device.image))
        if form == 1:
            images.is_refused('last_number_of_format_1', lines, 'Number')
        else:
            images.opens('last_number_of_format_2', lines, db, 2, LAST_NUMBER)
    device = Device()
    device.put_store(1, LAST_NUMBER - 1, records_of(db, 1), 9)
    images.opens('last_number_but_one', lines_of(device.image), db, 1, LAST_NUMBER - 1)


# What three commits do to the database of GRANTS: a row is another's, a privilege is taken, and a long text comes.
COMMITS = [["a: UPDATE t SET x = 21, o = 'dan' WHERE k = 2", 'a: DELETE FROM t WHERE k = 3'], ['a: REVOKE SELECT ON t FROM bob CASCADE'],
           [f"a: INSERT INTO t VALUES (9, 90, '{'m' * 700}')"]]


def write_journals(images):
    """Devices of format 3, whose root has number 12: what stands behind it counts where it is whole, and is without fault."""
    steps = [database(GRANTS + sum(COMMITS[:done], [])) for done in range(len(COMMITS) + 1)]
    records = [records_of(db, 2) for db in steps]
    batches = [batch_of(old, new) for old, new in zip(records, records[1:])]
    images.write('device_of_format_3', '.image', lines_of(device_of_grants(steps[0], 3).image))
    images.write('device_of_format_3', '.opened', ['opened, the same bytes'] * 2 + [f'number 12, format 3, {told_of(records[0])}'])
    write_good_journals(images, steps, batches)
    write_bad_journals(images, batches)


def journal_with(*records):
    """A journal behind the root of number 12, with records of these numbers."""
    journal = Journal(12)
    for count, batch in records:
        journal.append(count, batch)
    return journal


def write_good_journals(images, steps, batches):
    """Journals that are whole, or end where a stop has cut a record off, or hold what an earlier root had."""
    def opens(name, journal, done, count, asked=(), refused=()):
        images.opens(name, ['from device_of_format_3', *journal.lines()], steps[done], 3, count, asked, refused)

    opens('journal_of_one_record', journal_with((13, batches[0])), 1, 13, ASKED)
    opens('journal_of_three_records', journal_with(*zip((13, 14, 15), batches)), 3, 15, ASKED)
    opens('journal_with_numbers_left_out', journal_with(*zip((13, 40, 41), batches)), 3, 41)
    opens('journal_to_the_last_number', journal_with((13, batches[0]), (LAST_NUMBER, batches[1])), 2, LAST_NUMBER,
          ['open a ann', 'a: SELECT * FROM t'], [("a: INSERT INTO t VALUES (7, 7, 'bob')", '54000')])
    # A stop in the second of two parts, in the first of them, and before both.
    journal = journal_with(*zip((13, 14, 15), batches))
    assert journal.end == 4
    for left_out, top in ((3, 15), (2, 15)):
        cut = journal_with(*zip((13, 14, 15), batches))
        del cut.sectors[left_out]
        opens(f'record_without_its_part_{left_out - 2}', cut, 2, top, ASKED)
    # The record that was cut off has the place of another one, of a greater number, which is whole.
    journal = journal_with((13, batches[0]), (15, batches[1]))
    journal.put(2, 12, 14, 1, 2)
    opens('record_over_one_that_was_cut_off', journal, 2, 15)
    # Records of the root before: whole ones, and one behind the end.
    journal = journal_with((13, batches[0]))
    for at in range(1, 5):
        journal.put(at, 11, 12 + at, 0, 1, parts_of(batches[1])[0])
    opens('records_of_the_root_before', journal, 1, 16)
    journal = Journal(12)
    journal.put(0, 11, 12, 0, 1, parts_of(batches[1])[0])
    opens('record_of_the_root_before_alone', journal, 0, 12)
    # A record whose number does not rise is none.
    opens('record_of_an_older_number', journal_with((14, batches[0]), (14, batches[1])), 1, 14)
    # Under format 2 nobody reads these sectors.
    images.opens('journal_under_format_2', ['from grants_of_format_2', *journal_with((13, batches[0])).lines()], steps[0], 2, 12)


def write_bad_journals(images, batches):
    """Journals with a sector that none has, and records that spell no batch or no database."""
    def is_damaged(name, journal, *more):
        images.is_refused(name, ['from device_of_format_3', *journal.lines(), *more], 'Damaged')

    first = parts_of(batches[0])[0]
    good = journal_with((13, batches[0])).lines()
    tags = {'no_root': (0, 14, 0, 1), 'a_later_root': (13, 14, 0, 1), 'no_parts': (12, 14, 0, 0), 'more_parts_than_sectors': (12, 14, 0, 7),
            'an_index_past_its_parts': (12, 14, 2, 2), 'an_index_past_its_parts_of_the_root_before': (11, 12, 1, 1)}
    for name, fields in tags.items():
        journal = Journal(12)
        journal.put(1, *fields, first)
        images.is_refused(f'tag_of_{name}', ['from device_of_format_3', *good, *journal.lines()], 'Damaged')
    journal = journal_with((13, batches[0]))
    journal.put(2, 12, 14, 0, 1, first)
    is_damaged('record_behind_a_gap', journal)
    for at in (0, 1, 5):
        is_damaged(f'sector_{at}_of_no_tag', journal_with((13, batches[0])), byte_line(SECTOR * (JOURNAL_START + at), 0x47 if at else 0x46))
    is_damaged('blank_sector_with_one_byte', journal_with((13, batches[0])), byte_line(SECTOR * (JOURNAL_START + 6) - 1, 1))
    role = change_of(b'\1ann', b'\2')
    spoiled = {'no_kind_of_change': b'\3' + role[1:], 'keys_that_fall': role + change_of(b'\1aaa', b'\2'), 'one_key_twice': role * 2,
               'an_empty_key': change_of(b'', b'\2'), 'a_key_too_long': change_of(b'\1' + b'n' * 205, b'\2'),
               'a_value_too_long': change_of(b'\1ann', b'n' * 1201), 'a_byte_behind_its_zeros': role.ljust(PART - 1, b'\0') + b'\1',
               'a_part_of_zeros': role.ljust(PART + 1, b'\0'),
               'a_value_cut_off': (b'\1' + number(4, 2) + number(1100, 2) + b'\1ann').ljust(PART, b'n')}
    for name, batch in spoiled.items():
        is_damaged(f'record_with_{name}', journal_with((13, batch)))
    is_damaged('record_that_removes_an_owner', journal_with((13, change_of(b'\1ann', None))))
    is_damaged('record_of_no_kind', journal_with((13, change_of(b'\7', b'\0'))))


def write_rooms(images):
    """Devices with room for the records of format 2, and without."""
    many = database(many_grants(16, 15, 63))
    device = Device()
    used = device.put_store(1, 5, records_of(many, 1), 1)
    assert 2 * sum(has_descriptor(leaf) for leaf in leaves_of(records_of(many, 1), ROOM)) > PAGES - 1 > used
    images.is_refused('more_descriptors_than_room', lines_of(device.image), 'Full')
    for rows, free in (*fillings(1), *fillings(5)):
        db = database(many_rows(rows))
        device = Device()
        assert device.put_store(1, 70, records_of(db, 1), 1) == PAGES - 1 - free
        assert sum(has_descriptor(leaf) for leaf in leaves_of(records_of(db, 1), ROOM)) == 1
        if free == 1:
            images.is_refused('one_free_page', lines_of(device.image), 'Full')
        else:
            images.opens('five_free_pages', lines_of(device.image), db, 1, 70, ['open r root', 'r: SELECT count(*) FROM big'])


def has_descriptor(leaf):
    return any(key[0] == 4 for key, _ in leaf)


def fillings(free):
    """How many rows leave so many pages free."""
    for rows in range(150, 190):
        pages = 1 + len(tree_of(records_of(database(many_rows(rows)), 1)))
        if pages == PAGES - 1 - free:
            return [(rows, free)]
    raise AssertionError('no number of rows')


def write_odd_keys(images):
    """Records of kind 4 that are those of no descriptor, in format 1; and descriptors of a column."""
    db = database(GRANTS)
    odd = {'descriptor_of_205_bytes': (b'\4' + number(1, 4) + b'\1' + b'n' * 198 + b'\0', b'\0'),
           'descriptor_of_4_bytes': (b'\4\0\0\1', b'\0'), 'descriptor_of_one_byte': (b'\4', b'\0'),
           'descriptor_of_format_2': (descriptor_key(1, 'ann', 'dan', 'INSERT', b'\0'), b'\0'),
           'descriptor_of_no_table': (descriptor_key(3, 'ann', 'dan', 'INSERT', b''), b'\0')}
    for name, record in odd.items():
        device = Device()
        device.put_store(1, 4, sorted([*records_of(db, 1), record]), 12)
        images.is_refused(name, lines_of(device.image), 'Damaged')
    column = (descriptor_key(1, 'ann', 'bob', 'SELECT', b'\5'), b'\0')
    for form in (1, 2):
        device = Device()
        device.put_store(form, 4, sorted([*records_of(db, 2), column]), 12)
        images.is_refused(f'descriptor_of_a_column_under_format_{form}', lines_of(device.image), 'Damaged')


def write_all(folder):
    images = Images(folder)
    for write in (write_databases, write_formats, write_roots, write_numbers, write_journals, write_rooms, write_odd_keys):
        write(images)


def differing():
    """The names of the files of data/ that are not as they are to be, are missing, or are too many."""
    with tempfile.TemporaryDirectory() as folder:
        write_all(folder)
        made = set(os.listdir(folder))
        _, other, missing = filecmp.cmpfiles(folder, DATA, made, shallow=False)
    more = {name for name in os.listdir(DATA) if name.endswith(('.image', '.opened'))} - made
    return sorted([*other, *missing, *more])


def main():
    if sys.argv[1:]:
        return write_all(sys.argv[1])
    for name in (names := differing()):
        print(name, 'differs')
    return 1 if names else 0


if __name__ == '__main__':
    sys.exit(main())
