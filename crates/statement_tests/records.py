#!/usr/bin/env python3
"""A second reader of a database's records, which answers the lines of the part `records` as this crate's program is to.

It was written from the rules of the format and of the language (docs/formats.md, docs/sql.md, docs/definitions.md), not from the
code, and is as plain and slow as they are. tests/second_program.py hands it the lines, which are described at the head of
src/records.rt.
"""
import hashlib

ACTIONS = ["SELECT", "INSERT", "UPDATE", "DELETE"]
TYPES = ["BIGINT", "TEXT", "BOOLEAN"]
RESERVED = set("""ALL AND AS ASC CHECK CREATE CROSS CURRENT_USER DESC FALSE FOR FROM GRANT INNER INTO IS JOIN LIMIT
NONE NOT NULL ON OR ORDER PRIMARY PUBLIC SELECT SESSION_USER TABLE TO TRUE USING WHERE WITH""".split())
GREATEST = 9223372036854775807


class Damaged(Exception):
    pass


def need(holds):
    if not holds:
        raise Damaged("damaged")


# The bytes of a record, read from the left.
class Bytes:
    def __init__(self, data):
        self.data, self.at = data, 0

    def take(self, count):
        need(self.at + count <= len(self.data))
        self.at += count
        return self.data[self.at - count:self.at]

    def number(self, size):
        return int.from_bytes(self.take(size), "big")

    def below(self, limit):
        value = self.number(1)
        need(value < limit)
        return value

    def rest(self):
        return self.take(len(self.data) - self.at)

    def ended(self):
        end = self.data.find(0, self.at)
        need(end >= 0)
        return self.take(end + 1 - self.at)[:-1]

    def end(self):
        need(self.at == len(self.data))


def text(data):
    need(0 not in data)
    try:
        return data.decode("utf-8")
    except UnicodeDecodeError:
        raise Damaged("damaged")


def name(data):
    need(1 <= len(data) <= 63)
    return text(data)


def in_bytes(value):
    return value.encode("utf-8")


# Tokens: a pair of a kind and a value, with the places where each begins and ends.
def tokens(source):
    found, at = [], 0
    while at < len(source):
        c, begin = source[at], at
        if c in " \t\n\r\f":
            at += 1
            continue
        if source.startswith("--", at):
            while at < len(source) and source[at] not in "\n\r":
                at += 1
            continue
        if is_letter(c):
            while at < len(source) and (is_letter(source[at]) or source[at] in "0123456789$"):
                at += 1
            word = "".join(x.lower() if x < "\x80" else x for x in source[begin:at])
            need(len(in_bytes(word)) <= 63)
            keyword = "".join(x.upper() if x < "\x80" else x for x in word)
            found.append(("keyword", keyword, begin, at) if keyword in RESERVED else ("name", word, begin, at))
        elif c in "\"'":
            at, value = quoted(source, at, c)
            if c == '"':
                need(1 <= len(in_bytes(value)) <= 63)
            found.append(("name" if c == '"' else "text", value, begin, at))
        elif c in "0123456789":
            while at < len(source) and source[at] in "0123456789":
                at += 1
            need(at == len(source) or not is_letter(source[at]))
            need(int(source[begin:at]) <= GREATEST + 1)
            found.append(("number", int(source[begin:at]), begin, at))
        else:
            two = source[at:at + 2]
            sign = two if two in ("<>", "!=", "<=", ">=") else c
            need(sign in ("<>", "!=", "<=", ">=") or sign in "(),;.*+-/%=<>")
            at += len(sign)
            found.append(("sign", "<>" if sign == "!=" else sign, begin, at))
    return found


def is_letter(c):
    return c == "_" or "A" <= c <= "Z" or "a" <= c <= "z" or c >= "\x80"


def quoted(source, at, mark):
    at, value = at + 1, ""
    while True:
        need(at < len(source))
        if source[at] != mark:
            value += source[at]
            at += 1
        elif source.startswith(mark, at + 1):
            value += mark
            at += 2
        else:
            return at + 1, value


# Expressions, by the grammar: a tuple of an operator and its operands.
class Parser:
    def __init__(self, found):
        self.found, self.at = found, 0

    def looks(self, kind, *values):
        if self.at == len(self.found):
            return False
        token = self.found[self.at]
        return token[0] == kind and (not values or token[1] in values)

    def accept(self, kind, *values):
        if not self.looks(kind, *values):
            return None
        self.at += 1
        return self.found[self.at - 1][1]

    # Whether these words follow, none of them in quotes.
    def has_words(self, *words):
        ahead = self.found[self.at:self.at + len(words)]
        return [x[1] for x in ahead if x[0] == "name" and x[3] - x[2] == len(x[1])] == list(words)

    def expect(self, kind, *values):
        value = self.accept(kind, *values)
        need(value is not None)
        return value

    def chain(self, operand, kind, *values):
        left = operand()
        while self.looks(kind, *values):
            operator = self.expect(kind, *values)
            left = (operator, left, operand())
        return left

    def expr(self):
        return self.chain(self.conj, "keyword", "OR")

    def conj(self):
        return self.chain(self.neg, "keyword", "AND")

    def neg(self):
        if self.accept("keyword", "NOT"):
            return ("NOT", self.neg())
        return self.test()

    def test(self):
        operand = self.comp()
        while self.accept("keyword", "IS"):
            negated = self.accept("keyword", "NOT")
            self.expect("keyword", "NULL")
            operand = ("IS NOT NULL" if negated else "IS NULL", operand)
        return operand

    def comp(self):
        left = self.sum()
        operator = self.accept("sign", "=", "<>", "<", "<=", ">", ">=")
        return (operator, left, self.sum()) if operator else left

    def sum(self):
        return self.chain(self.term, "sign", "+", "-")

    def term(self):
        return self.chain(self.sign, "sign", "*", "/", "%")

    def sign(self):
        if not self.accept("sign", "-"):
            return self.prim()
        number = self.accept("number")
        return ("negative", self.sign()) if number is None else ("number", -number)

    def prim(self):
        if self.looks("number"):
            number = self.expect("number")
            need(number <= GREATEST)
            return ("number", number)
        if self.looks("text"):
            return ("text", self.expect("text"))
        word = self.accept("keyword", "TRUE", "FALSE", "NULL", "CURRENT_USER", "SESSION_USER")
        if word:
            return (word,)
        if self.has_words("member", "of"):
            self.at += 2
            return ("MEMBER OF", self.prim())
        if self.looks("name"):
            first = self.expect("name")
            return ("column", first, self.expect("name")) if self.accept("sign", ".") else ("column", "", first)
        self.expect("sign", "(")
        inner = self.expr()
        self.expect("sign", ")")
        return inner


def is_leaf(tree):
    return tree[0] in ("number", "text", "column") or len(tree) == 1


def depth(tree):
    return 1 if is_leaf(tree) else 1 + max(depth(x) for x in tree[1:])


# The type of an expression over the columns of a table: None is that of the word NULL alone.
def type_of(tree, table):
    head = tree[0]
    if head == "number":
        return "BIGINT"
    if head in ("text", "CURRENT_USER", "SESSION_USER"):
        return "TEXT"
    if head in ("TRUE", "FALSE"):
        return "BOOLEAN"
    if head == "NULL":
        return None
    if head == "column":
        need(tree[1] in ("", table["name"]))
        kinds = [c[1] for c in table["columns"] if c[0] == tree[2]]
        need(kinds)
        return kinds[0]
    given = [type_of(x, table) for x in tree[1:]]
    if head in ("IS NULL", "IS NOT NULL"):
        return "BOOLEAN"
    if head in ("=", "<>", "<", "<=", ">", ">="):
        need(None in given or given[0] == given[1])
        return "BOOLEAN"
    if head == "MEMBER OF":
        need(given[0] in (None, "TEXT"))
        return "BOOLEAN"
    wanted = "BOOLEAN" if head in ("AND", "OR", "NOT") else "BIGINT"
    need(all(x in (None, wanted) for x in given))
    return wanted


# A condition: its text from its first token to its last, of type BOOLEAN.
def condition(source, table):
    need(len(in_bytes(source)) <= 65536)
    found = tokens(source)
    need(found and found[0][2] == 0 and found[-1][3] == len(source))
    opened = 0
    for token in found:
        opened += {"(": 1, ")": -1 if opened else 0}.get(token[1], 0) if token[0] == "sign" else 0
        need(opened <= 64)
    parser = Parser(found)
    tree = parser.expr()
    need(parser.at == len(found))
    need(depth(tree) <= 64)
    need(type_of(tree, table) in (None, "BOOLEAN"))
    return tree


def words_of(tree):
    if tree[0] == "number":
        return str(tree[1])
    if tree[0] == "text":
        return "'%s'" % tree[1]
    if tree[0] == "column":
        return "%s.%s" % tree[1:]
    return " ".join([tree[0]] + [words_of(operand) for operand in tree[1:]])


# The records of each kind.
def read_role(key, value):
    need(len(value) == 1 and value[0] < 8)
    return name(key), value[0]


def read_membership(key, value):
    reader = Bytes(key)
    role, member = name(reader.ended()), name(reader.ended())
    reader.end()
    need(len(value) == 1 and value[0] < 2)
    return role, member, value[0]


def read_table(key, value):
    reader, table = Bytes(value), {"name": name(key)}
    table["id"] = reader.number(4)
    need(1 <= table["id"] <= 1024)
    table["owner"] = name(reader.ended())
    table["flags"] = reader.below(4)
    table["columns"] = []
    for _ in range(reader.number(1)):
        column, kind = name(reader.ended()), reader.number(1)
        need(1 <= kind <= 3)
        table["columns"].append((column, TYPES[kind - 1], reader.below(2)))
    need(1 <= len(table["columns"]) <= 16)
    need(len(set(c[0] for c in table["columns"])) == len(table["columns"]))
    table["key"] = [reader.below(len(table["columns"])) for _ in range(reader.number(1))]
    need(table["key"] and len(set(table["key"])) == len(table["key"]))
    need(all(table["columns"][place][2] == 1 for place in table["key"]))
    reader.end()
    return table


def read_descriptor(key, value):
    reader = Bytes(key)
    table, action = reader.number(4), reader.number(1)
    need(1 <= action <= 4)
    place = reader.number(1)
    need(place <= 16)
    grantor, grantee = reader.ended(), reader.ended()
    reader.end()
    need(len(value) == 1 and value[0] < 2)
    return table, action, place, grantor and name(grantor) or "", grantee and name(grantee) or "", value[0]


def read_policy(key, value):
    reader, policy = Bytes(key), {}
    policy["table"], policy["name"] = reader.number(4), name(reader.rest())
    reader = Bytes(value)
    policy["kind"], policy["command"] = reader.number(1), reader.below(5)
    need(policy["kind"] in (1, 2))
    policy["roles"] = [name(reader.ended()) for _ in range(reader.number(1))]
    roles = [in_bytes(role) for role in policy["roles"]]
    need(all(before < after for before, after in zip(roles, roles[1:])))
    policy["texts"] = [text(reader.take(reader.number(2))) if reader.below(2) else None for _ in range(2)]
    reader.end()
    return policy


def check_policy(policy, table):
    using, check = policy["texts"]
    command = policy["command"]
    need((using is None) == (command == 2))
    need(check is not None if command == 2 else check is None or command not in (1, 4))
    policy["trees"] = [None if x is None else condition(x, table) for x in policy["texts"]]


# The values of a row, from its key without the number of the table.
def read_row(key, value, table):
    need(len(key) <= 200 and len(value) <= 1200)
    values = {}
    reader = Bytes(key)
    for place in table["key"]:
        kind = table["columns"][place][1]
        if kind == "BIGINT":
            values[place] = reader.number(8) - 2 ** 63
        elif kind == "TEXT":
            values[place] = text(reader.ended())
        else:
            values[place] = reader.below(2) == 1
    reader.end()
    reader = Bytes(value)
    for place, (_, kind, not_null) in enumerate(table["columns"]):
        if place not in table["key"]:
            tag = reader.number(1)
            need(tag in {"BIGINT": (0, 1), "TEXT": (0, 2), "BOOLEAN": (0, 3, 4)}[kind])
            need(tag != 0 or not not_null)
            if tag == 1:
                values[place] = int.from_bytes(reader.take(8), "big", signed=True)
            elif tag == 2:
                values[place] = text(reader.take(reader.number(2)))
            else:
                values[place] = {0: None, 3: False, 4: True}[tag]
    reader.end()
    return [values[place] for place in range(len(table["columns"]))]


# What the records say together.
def check_roles(database):
    roles = set(role for role, _ in database["roles"])
    for role, member, _ in database["memberships"]:
        need(role in roles and member in roles)
    for table in database["tables"]:
        need(table["owner"] in roles)
    for _, _, _, grantor, grantee, _ in database["descriptors"]:
        need(grantor in roles | {""} and grantee in roles | {""})
    for policy in database["policies"]:
        need(all(role in roles for role in policy["roles"]))


def check_circles(memberships):
    for start in set(role for role, _, _ in memberships):
        reached, more = set(), {start}
        while more:
            more = set(member for role, member, _ in memberships if role in more) - reached
            reached |= more
        need(start not in reached)


def check_descriptors(table, descriptors):
    of_system = sorted(d[1:] for d in descriptors if d[3] == "")
    need(of_system == [(action, 0, "", table["owner"], 1) for action in (1, 2, 3, 4)])
    need(all(d[2] <= len(table["columns"]) and (d[1] != 4 or d[2] == 0) for d in descriptors))
    need(all(d[4] != "" or d[5] == 0 for d in descriptors))
    supported = set(d for d in descriptors if d[3] == "")
    while True:
        more = set(q for q in descriptors for p in supported
                   if p[1] == q[1] and p[2] in (0, q[2]) and p[5] == 1 and p[4] != "" and p[4] == q[3])
        if more <= supported:
            break
        supported |= more
    need(supported == set(descriptors))


def read_definitions(records):
    database = {kind: [] for kind in ("roles", "memberships", "tables", "descriptors", "policies")}
    readers = {1: ("roles", read_role), 2: ("memberships", read_membership), 3: ("tables", read_table),
               4: ("descriptors", read_descriptor), 5: ("policies", read_policy)}
    for key in sorted(records):
        if key[0] != 6:
            need(key[0] in readers)
            kind, reader = readers[key[0]]
            database[kind].append(reader(key[1:], records[key]))
    by_id = {table["id"]: table for table in database["tables"]}
    need(len(by_id) == len(database["tables"]) <= 1024)
    check_roles(database)
    check_circles(database["memberships"])
    need(all(d[0] in by_id for d in database["descriptors"]))
    for number, table in by_id.items():
        check_descriptors(table, [d for d in database["descriptors"] if d[0] == number])
    for policy in database["policies"]:
        need(policy["table"] in by_id)
        check_policy(policy, by_id[policy["table"]])
    return database


def read_rows(records, tables):
    by_id = {table["id"]: table for table in tables}
    rows = []
    for key in sorted(records):
        if key[0] == 6:
            reader = Bytes(key[1:])
            table = by_id.get(reader.number(4))
            need(table)
            rows.append((table, row_line(table, reader.rest(), records[key])))
    return rows


# All that is said of a database, a line for each item.
def flagged(holds, words):
    return " " + words if holds else ""


def role_line(role):
    name, flags = role
    return "role " + name + flagged(flags & 1, "SUPERUSER") + flagged(flags & 2, "LOGIN") + flagged(flags & 4, "BYPASSRLS")


def membership_line(membership):
    role, member, admin = membership
    return member + " in " + role + flagged(admin, "WITH ADMIN OPTION")


def table_line(table):
    line = "table %d %s of %s:" % (table["id"], table["name"], table["owner"])
    for column, kind, not_null in table["columns"]:
        line += " " + column + " " + kind + flagged(not_null, "NOT NULL") + ","
    line += " key" + "".join(" %d" % place for place in table["key"])
    return line + flagged(table["flags"] & 1, "ENABLED") + flagged(table["flags"] & 2, "FORCED")


def descriptor_line(descriptor, table):
    _, action, place, grantor, grantee, grantable = descriptor
    line = "%s grants %s" % (grantor or "_SYSTEM", ACTIONS[action - 1]) + flagged(place, "(column %d)" % (place - 1))
    line += " ON %s TO %s" % (table["name"], grantee or "PUBLIC")
    return line + flagged(grantable, "WITH GRANT OPTION")


def policy_line(policy, table):
    kind, command = ("PERMISSIVE", "RESTRICTIVE")[policy["kind"] - 1], (["ALL"] + ACTIONS)[policy["command"]]
    line = "policy %s ON %s %s FOR %s TO " % (policy["name"], table["name"], kind, command)
    line += " ".join(policy["roles"] or ["PUBLIC"])
    for word, source, tree in zip(("USING", "CHECK"), policy["texts"], policy["trees"]):
        line += " %s [%s] as %s" % (word, source, words_of(tree)) if tree else ""
    return line


def value_word(value):
    if value is None:
        return "NULL"
    if isinstance(value, bool):
        return "TRUE" if value else "FALSE"
    return str(value) if isinstance(value, int) else "'%s'" % value


def row_line(table, key, value):
    values = " ".join(value_word(x) for x in read_row(key, value, table))
    written = b"\6" + table["id"].to_bytes(4, "big") + key
    return "row of %s: %s as %s/%s" % (table["name"], values, written.hex(), value.hex())


def lines_of(records):
    database = read_definitions(records)
    try:
        rows = read_rows(records, database["tables"])
    except Damaged:
        raise Damaged("damaged rows")
    lines = [role_line(role) for role in database["roles"]] + [membership_line(m) for m in database["memberships"]]
    for table in database["tables"]:
        lines.append(table_line(table))
        lines += [descriptor_line(d, table) for d in database["descriptors"] if d[0] == table["id"]]
        lines += [policy_line(p, table) for p in database["policies"] if p["table"] == table["id"]]
        lines += [line for of, line in rows if of is table]
    numbers = set(table["id"] for table in database["tables"])
    return lines + ["least free number: %d" % min(set(range(1, 1026)) - numbers)]


# The cases.
def bytes_of(written):
    data = b""
    for place, part in enumerate(written.split("'")):
        if place % 2:
            data += in_bytes(part)
        else:
            for group in part.split():
                count, digits = group.split("*") if "*" in group else ("1", group)
                data += int(count) * bytes.fromhex(digits)
    return data


def record_of(written):
    key, _, value = written.partition("/")
    return bytes_of(key), bytes_of(value)


# The records with one more, which a store takes only in some sizes.
def with_record(records, key, value):
    need(1 <= len(key) <= 205 and len(value) <= 1200)
    return {**records, key: value}


def tried(records, key, value):
    try:
        before = lines_of(records)
    except Damaged:
        before = []
    return [line for line in lines_of(with_record(records, key, value)) if line not in before]


def found(records, first, second):
    database = read_definitions(records)
    lines = [role_line(role) for role in database["roles"] if role[0] == first]
    lines += [membership_line(m) for m in database["memberships"] if m[:2] == (first, second)]
    for table in database["tables"]:
        if table["name"] == first:
            lines.append(table_line(table))
            lines += [policy_line(p, table) for p in database["policies"]
                      if p["table"] == table["id"] and p["name"] == second]
    return lines or ["none"]


def row_tried(records, name, key, value):
    tables = read_definitions(records)["tables"]
    try:
        return [row_line(table, key, value) for table in tables if table["name"] == name]
    except Damaged:
        return ["no row"]


def outcome(records, *record):
    try:
        lines = lines_of(with_record(records, *record) if record else records)
    except Damaged as damage:
        return {"damaged": ".", "damaged rows": ","}[str(damage)]
    return hashlib.md5(in_bytes("".join(line + "\n" for line in lines))).hexdigest()[:16]


def changes_of(data):
    for at, byte in enumerate(data):
        others = bytes([(byte + 1) % 256]), bytes([byte ^ 128]), bytes([0 if byte else 255]), b""
        yield [data[:at] + other + data[at + 1:] for other in others]


def varied(records):
    for key, value in sorted(records.items()):
        rest = {k: v for k, v in records.items() if k != key}
        line = key.hex() + ":"
        for others in changes_of(key):
            line += " " + "".join(outcome(rest, other, value) for other in others)
        line += " /"
        for others in changes_of(value):
            line += " " + "".join(outcome(rest, key, other) for other in others)
        yield line + " - " + outcome(rest)


# The lines that a line of the input comes to.
def lines_for(records, word, rest):
    try:
        if word == "check":
            return lines_of(records) and ["whole"]
        if word == "show":
            return lines_of(records)
        if word == "try":
            return tried(records, *record_of(rest))
        if word == "find":
            return found(records, *rest.split(" "))
        if word == "row":
            name, record = rest.split(" ", 1)
            return row_tried(records, name, *record_of(record))
        return list(varied(records))
    except Damaged as damage:
        return [str(damage)]


def answers(lines):
    """What the lines come to."""
    new = {b"\1root": b"\3"}
    records = new
    for line in lines:
        word, _, rest = line.partition(" ")
        if word == "--":
            yield line
        elif word == "new":
            records = new
        elif word == "put":
            records = with_record(records, *record_of(rest))
        elif word == "remove":
            records = {k: v for k, v in records.items() if k != bytes_of(rest)}
        else:
            yield from lines_for(records, word, rest)
