#!/usr/bin/env python3
"""A second program, which answers the lines of the part `definitions` as this crate's program is to.

tests/second_program.py hands it the lines, and make_definitions.py makes them. `python3 make_definitions.py | python3 definitions.py`
lists how often each kind of statement has each answer, and how large the graphs are.

It shares nothing with the code: it follows the rules of the language (docs/sql.md, docs/definitions.md) and the
definitions of the crate abstract_database, and is as plain and slow as they are.
"""
import hashlib
import re
import sys

ACTIONS = ["SELECT", "INSERT", "UPDATE", "DELETE"]
QUERY = re.compile(r"SELECT (.*?)(?: FROM (.*?))?(?: WHERE (.*?))?(?: ORDER BY (.*?))?(?: LIMIT \d+)?")


# ---- reading the text of a statement

class Refused(Exception):
    pass


def require(holds, code):
    if not holds:
        raise Refused(code)


class Words:
    def __init__(self, text):
        self.words = re.findall(r"\w+|[(),]", text)

    def next(self):
        return self.words.pop(0)

    def has(self, phrase):
        words = phrase.split()
        if self.words[:len(words)] == words:
            self.words = self.words[len(words):]
            return True
        return False

    def list(self):
        items = [self.next()]
        while self.has(","):
            items.append(self.next())
        return items

    def columns(self):
        """A list of columns in parentheses, if there is one."""
        columns = []
        if self.has("("):
            columns = self.list()
            self.next()
        return columns


# ---- the database

class Database:
    def __init__(self, admin):
        self.roles = {admin: {"SUPERUSER": True, "LOGIN": True, "BYPASSRLS": False}}
        self.memberships = {}  # (role, member): whether with admin option
        self.tables = {}  # name: owner, columns, key, the flags of row security, number
        # (table, action, column, grantor, grantee): whether grantable; "" is the whole table, the system, and PUBLIC
        self.descriptors = {}

    # ---- roles

    def is_superuser(self, role):
        return role in self.roles and self.roles[role]["SUPERUSER"]

    def roles_of(self, role, memberships):
        """The roles that a role is in: itself, and each that a chain of memberships leads to."""
        found = {role}
        while True:
            more = {r for (r, m) in memberships if m in found} - found
            if not more:
                return found
            found |= more

    def is_in(self, role, other):
        return other in self.roles_of(role, self.memberships)

    def acts_as(self, role, owner):
        return self.is_superuser(role) or self.is_in(role, owner)

    def may_grant_role(self, current, role):
        if self.is_superuser(current):
            return True
        return not self.is_superuser(role) and any(
            r == role and admin and self.is_in(current, m) for (r, m), admin in self.memberships.items())

    def create_role(self, current, words):
        role = words.next()
        words.has("WITH")
        written = words.words
        for name in ["SUPERUSER", "LOGIN", "BYPASSRLS"]:
            require(not (name in written and "NO" + name in written), "42601")
        require(role not in self.roles, "42710")
        require(self.is_superuser(current), "42501")
        self.roles[role] = {name: name in written for name in ["SUPERUSER", "LOGIN", "BYPASSRLS"]}

    def drop_role(self, current, session, role):
        require(role in self.roles, "42704")
        require(self.is_superuser(current), "42501")
        owns = any(t["owner"] == role for t in self.tables.values())
        stands = any(role in (grantor, grantee) for (_, _, _, grantor, grantee) in self.descriptors)
        require(not (owns or stands or role in (current, session)), "2BP01")
        del self.roles[role]
        self.memberships = {k: v for k, v in self.memberships.items() if role not in k}

    def check_memberships(self, current, roles, members):
        require(all(name in self.roles for name in roles + members), "42704")
        require(all(self.may_grant_role(current, role) for role in roles), "42501")

    def grant_role(self, current, words):
        roles = words.list()
        words.has("TO")
        members = words.list()
        admin = words.has("WITH ADMIN OPTION")
        self.check_memberships(current, roles, members)
        after = dict(self.memberships)
        for role in roles:
            for member in members:
                require(member not in self.roles_of(role, after), "0LP01")
                after[role, member] = admin or after.get((role, member), False)
        self.memberships = after

    def revoke_role(self, current, words):
        option_alone = words.has("ADMIN OPTION FOR")
        roles = words.list()
        words.has("FROM")
        members = words.list()
        self.check_memberships(current, roles, members)
        for role, member in list(self.memberships):
            if role in roles and member in members:
                if option_alone:
                    self.memberships[role, member] = False
                else:
                    del self.memberships[role, member]

    # ---- tables

    def create_table(self, current, words):
        name = words.next()
        words.next()
        columns = []
        keys = []
        while True:
            if words.has("PRIMARY KEY ("):
                keys.append(words.list())
                words.next()
            else:
                column = [words.next(), words.next().replace("BOOLEAN", "BOOL").replace("BOOL", "BOOLEAN"), False]
                while words.words[0] not in [",", ")"]:
                    if words.has("PRIMARY KEY"):
                        keys.append([column[0]])
                    elif words.has("NOT NULL"):
                        column[2] = True
                columns.append(column)
            if words.next() == ")":
                break
        require(len(keys) == 1, "42601")
        key = keys[0]
        names = [column[0] for column in columns]
        require(name not in self.tables, "42P07")
        require(len(set(names)) == len(names), "42701")
        require(len(set(key)) == len(key), "42701")
        require(all(column in names for column in key), "42703")
        require(len(columns) <= 16 and len(self.tables) < 1024, "54000")
        for column in columns:
            column[2] = column[2] or column[0] in key
        self.tables[name] = {"owner": current, "columns": columns, "key": key, "ENABLE": False, "FORCE": False}
        for action in ACTIONS:
            self.descriptors[name, action, "", "", current] = True

    def owned(self, current, name):
        require(name in self.tables, "42P01")
        require(self.acts_as(current, self.tables[name]["owner"]), "42501")
        return self.tables[name]

    def alter_table(self, current, words):
        table = self.owned(current, words.next())
        change = " ".join(words.words).replace(" ROW LEVEL SECURITY", "")
        flag = {"ENABLE": "ENABLE", "DISABLE": "ENABLE", "FORCE": "FORCE", "NO FORCE": "FORCE"}[change]
        table[flag] = change == flag

    def drop_table(self, current, name):
        self.owned(current, name)
        del self.tables[name]
        self.descriptors = {k: v for k, v in self.descriptors.items() if k[0] != name}

    # ---- privileges

    def columns(self, table):
        return [column[0] for column in self.tables[table]["columns"]]

    def acting_grantor(self, current, table, action, column):
        """Who grants for the role: the owner, the role itself, the least holder that it is in, or nobody."""
        owner = self.tables[table]["owner"]
        if self.acts_as(current, owner):
            return owner
        holders = [grantee for (t, a, c, _, grantee), grantable in self.descriptors.items()
                   if (t, a) == (table, action) and c in ("", column) and grantable and grantee != ""]
        if current in holders:
            return current
        return min([holder for holder in holders if self.is_in(current, holder)], default=None)

    def supported(self, descriptors):
        """Those that a chain of supports leads to from one of the system."""
        found = set()
        new = {key for key in descriptors if key[3] == ""}
        while new:
            found |= new
            new = {key for key in set(descriptors) - found
                   if any(descriptors[other] and supports(other, key) for other in new)}
        return found

    def rights_of(self, words):
        """Whether a statement names privileges by ALL, and its rights: an action with a column each, or with "" for the table."""
        if words.has("ALL"):
            words.has("PRIVILEGES")
            columns = words.columns()
            return True, [(action, column) for action in ACTIONS[:3 if columns else 4] for column in columns or [""]]
        rights = []
        while True:
            action = words.next()
            columns = words.columns()
            require(not (columns and action == "DELETE"), "42601")
            rights += [(action, column) for column in columns or [""]]
            if not words.has(","):
                return False, rights

    def named(self, current, words, preposition):
        """The grantees, what GRANT and REVOKE name (checked up to 42501), and whether they leave something out."""
        is_all, rights = self.rights_of(words)
        words.has("ON")
        table = words.next()
        words.has(preposition)
        grantees = ["" if grantee == "PUBLIC" else grantee for grantee in words.list()]
        require(table in self.tables, "42P01")
        require(all(grantee == "" or grantee in self.roles for grantee in grantees), "42704")
        require(all(column in ["", *self.columns(table)] for _, column in rights), "42703")
        has_some = self.is_superuser(current) or any(
            t == table and (grantee == "" or self.is_in(current, grantee)) for (t, _, _, _, grantee) in self.descriptors)
        require(has_some, "42501")
        by = {right: self.acting_grantor(current, table, *right) for right in rights}
        named = [(table, *right, by[right], grantee) for right in rights for grantee in grantees if by[right]]
        missing = [right for right in rights if by[right] is None]
        leaves_out = len(missing) == len(rights) if is_all else len(missing) > 0
        return grantees, named, leaves_out

    def grant(self, current, words):
        grantees, named, leaves_out = self.named(current, words, "TO")
        option = words.has("WITH GRANT OPTION")
        require(not (option and "" in grantees), "0LP01")
        for key in named:
            self.descriptors[key] = option or self.descriptors.get(key, False)
        return "01007" if leaves_out else "ok"

    def revoke(self, current, words):
        option_alone = words.has("GRANT OPTION FOR")
        _, named, leaves_out = self.named(current, words, "FROM")
        after = dict(self.descriptors)
        for key in self.descriptors:
            on_table = key[:2] + ("",) + key[3:]  # what names a table takes the same of its columns
            if key in named or on_table in named:
                if option_alone:
                    after[key] = False
                else:
                    del after[key]
        supported = self.supported(after)
        require(words.has("CASCADE") or len(supported) == len(after), "2B000")
        self.descriptors = {key: after[key] for key in after if key in supported}
        return "01006" if leaves_out else "ok"

    # ---- what a statement needs

    def needs(self, text):
        """What a statement over rows needs (docs/definitions.md, "What a statement needs"): an action each, with its table and
        a column, "" for the whole table, or None for some column.

        No text in quotes is in it, words in capitals are keywords, and its tables have aliases without AS."""
        if text.startswith("SELECT"):
            return self.needs_of_query(text)
        if text.startswith("INSERT"):
            return self.needs_of_insert(text)
        kind, table, assignments, condition = re.fullmatch(
            r"(UPDATE|DELETE FROM) (\w+)(?: SET (.*?))?(?: WHERE (.*))?", text).groups("")
        require(table in self.tables, "42P01")
        pairs = [part.split(" = ") for part in assignments.split(", ") if part]
        set_columns = [column for column, _ in pairs]
        require(len(set(set_columns)) == len(set_columns), "42701")
        require(set(set_columns) <= set(self.columns(table)), "42703")
        read = self.columns_read([(table, table)], " ".join([value for _, value in pairs] + [condition]))
        types = {column[0]: column[1] for column in self.tables[table]["columns"]}
        require(all(types.get(value, types[column]) == types[column] for column, value in pairs), "42804")
        changed = [("UPDATE", column) for column in set_columns] or [("DELETE", "")]
        return [(action, table, column) for action, column in changed + [("SELECT", column) for _, column in read]]

    def needs_of_insert(self, text):
        table, listed, row = re.match(r"INSERT INTO (\w+)(?: \((.*?)\))? VALUES \((.*?)\)", text).groups("")
        require(table in self.tables, "42P01")
        width = len(row.split(", "))
        columns = listed.split(", ") if listed else self.columns(table)[:width]
        require(len(set(columns)) == len(columns), "42701")
        require(len(columns) == width, "42601")
        require(set(columns) <= set(self.columns(table)), "42703")
        return [("INSERT", table, column) for column in columns]

    def needs_of_query(self, text):
        listed, source, condition, keys = QUERY.fullmatch(text).groups("")
        scope = []
        terms = [listed, condition, keys]
        for part in re.split(", | CROSS JOIN | JOIN ", source) if source else []:
            names, _, on = part.partition(" ON ")
            scope.append((names.split()[-1], names.split()[0]))
            terms.append(on)
        require(all(table in self.tables for _, table in scope), "42P01")
        read = self.columns_read(scope, " ".join(terms))
        if listed == "*":
            read |= {(number, column) for number, (_, table) in enumerate(scope) for column in self.columns(table)}
        return [("SELECT", table, column) for number, (_, table) in enumerate(scope)
                for column in [c for at, c in read if at == number] or [None]]

    def columns_read(self, scope, terms):
        """The columns that expressions name, each with the number of its table, over tables with what each is called."""
        read = set()
        for called, column in re.findall(r"(?:\b([a-z]\w*)\.)?\b([a-z]\w*)", terms.replace("count(*)", "")):
            found = [number for number, (name, table) in enumerate(scope)
                     if called in ("", name) and column in self.columns(table)]
            require(found, "42703")
            require(len(found) == 1, "42702")
            read.add((found[0], column))
        return read

    def has_privilege(self, role, action, table, column):
        return self.is_superuser(role) or any(
            (t, a) == (table, action) and (c in ("", column) or column is None) and (to == "" or self.is_in(role, to))
            for (t, a, c, _, to) in self.descriptors)

    def asked(self, role, text):
        """Whether a role may issue a statement: GRANT of one role to another one, or one over rows."""
        grant = re.fullmatch(r"GRANT (\w+) TO (\w+)", text)
        if grant:
            granted, member = grant.groups()
            if not self.may_grant_role(role, granted):
                return "42501"
            return "0LP01" if self.is_in(granted, member) else "ok"
        try:
            require(all(self.has_privilege(role, *need) for need in self.needs(text)), "42501")
            return "ok"
        except Refused as refused:
            return refused.args[0]

    # ---- all statements

    def answer(self, current, session, text):
        words = Words(text)
        try:
            if words.has("CREATE ROLE"):
                self.create_role(current, words)
            elif words.has("DROP ROLE"):
                self.drop_role(current, session, words.next())
            elif words.has("CREATE TABLE"):
                self.create_table(current, words)
            elif words.has("ALTER TABLE"):
                self.alter_table(current, words)
            elif words.has("DROP TABLE"):
                self.drop_table(current, words.next())
            elif " ON " in text:
                return self.grant(current, words) if words.next() == "GRANT" else self.revoke(current, words)
            elif words.has("GRANT"):
                self.grant_role(current, words)
            elif words.has("REVOKE"):
                self.revoke_role(current, words)
            return "ok"
        except Refused as refused:
            return refused.args[0]

    def lines(self):
        """All definitions, a line each: in order, as the lists of a database are."""
        out = []
        for name, attributes in sorted(self.roles.items()):
            out.append("role " + name + "".join(" " + word for word in attributes if attributes[word]))
        for (role, member), admin in sorted(self.memberships.items()):
            out.append("membership " + role + " " + member + (" ADMIN" if admin else ""))
        for name, table in sorted(self.tables.items()):
            out.append("table " + name + " " + table["owner"]
                       + "".join(" " + flag for flag in ["ENABLE", "FORCE"] if table[flag]))
            for column in table["columns"]:
                out.append("column " + column[0] + " " + column[1] + (" NOT NULL" if column[2] else ""))
            names = self.columns(name)
            out.append("key" + "".join(" %d" % names.index(column) for column in table["key"]))
            of_table = [(ACTIONS.index(a), ["", *names].index(c), by, to, v)
                        for (t, a, c, by, to), v in self.descriptors.items() if t == name]
            for action, place, grantor, grantee, grantable in sorted(of_table):
                out.append(ACTIONS[action] + (" (" + names[place - 1] + ")" if place > 0 else "")
                           + " by " + (grantor or "_SYSTEM") + " to " + (grantee or "PUBLIC")
                           + (" GRANT OPTION" if grantable else ""))
        return out + self.rights()

    def rights(self):
        """What each role may do, a line each: in which roles it is, and its actions on each table."""
        out = []
        for role in sorted(self.roles):
            above = self.roles_of(role, self.memberships)
            out.append(role + " is in" + "".join(" " + other for other in sorted(self.roles) if other in above))
            for name, table in sorted(self.tables.items()):
                granted = {(a, c) for (t, a, c, _, to) in self.descriptors if t == name and (to == "" or to in above)}
                granted |= {(a, "") for a in ACTIONS if self.is_superuser(role)}
                out.append(role + " on " + name
                           + "".join(self.right(granted, action, self.columns(name)) for action in ACTIONS)
                           + (" OWNER" if self.acts_as(role, table["owner"]) else ""))
        return out

    def right(self, granted, action, columns):
        """The word of an action that one may do on each column, with its columns where these are not all, or nothing."""
        allowed = [column for column in columns if (action, "") in granted or (action, column) in granted]
        if not allowed:
            return ""
        return " " + action + (" (" + " ".join(allowed) + ")" if len(allowed) < len(columns) else "")


def supports(key, other):
    """Whether one with grant option lets the other one be granted: to its grantor, on the table or on the same column."""
    return key[:2] == other[:2] and key[2] in ("", other[2]) and key[4] == other[3]


def digest_of(text):
    """The first eight bytes of the MD5 digest."""
    return hashlib.md5(text.encode()).hexdigest()[:16]


def carried_out(lines):
    """Each line with the database after it, and with its answer and its text where it is a statement."""
    database = Database("r0")
    for line in lines:
        if line == "new":
            database = Database("r0")
        if line in ["new", "definitions"] or line.startswith(("#", "may ")):
            yield line, database, None, line
        else:
            users, text = line.split(": ", 1)
            session, current = users.split(" ")
            yield line, database, database.answer(current, session, text), text


def answers(lines):
    """What the lines come to."""
    count = 0
    for line, database, answer, _ in carried_out(lines):
        if line == "new" or line.startswith("#"):
            yield line
        elif line == "definitions":
            yield from database.lines()
        elif line.startswith("may "):
            role, text = line[len("may "):].split(": ", 1)
            yield database.asked(role, text)
        else:
            count += 1
            yield answer + " " + digest_of("".join(line + "\n" for line in database.lines()))
    yield "statements %d, differences 0" % count


def kind_of(text):
    """The command of a statement, with what is revoked, and whether under CASCADE."""
    words = text.split(" ")
    if words[0] not in ["GRANT", "REVOKE"]:
        return " ".join(words[:2])
    kind = words[0] + (" " + " ".join(words[1:4]) if " OPTION FOR " in text else "")
    if " ON " not in text:
        return kind + " (roles)"
    return kind + (" CASCADE" if text.endswith(" CASCADE") else "")


def circles_and_doubles(descriptors):
    """How many grants go in a circle, also to oneself, or are led to by one, and how many rights come from one more grantor."""
    grants = {key for key in descriptors if key[3]}
    in_circle = set(grants)
    while True:
        handed_on = {key for key in in_circle if any(supports(other, key) for other in in_circle)}
        if handed_on == in_circle:
            break
        in_circle = handed_on
    return [len(in_circle), len(grants) - len({key[:3] + key[4:] for key in grants})]


def listed_answers(lines):
    """How often each kind of statement has each answer, and how large the databases became."""
    counts = {}
    most = []
    for line, database, answer, text in carried_out(lines):
        if line == "new":
            most.append([0] * 5)
        elif answer:
            kind = counts.setdefault(kind_of(text), {})
            kind[answer] = kind.get(answer, 0) + 1
            sizes = [len(database.roles), len(database.memberships), len(database.descriptors)]
            most[-1] = [max(pair) for pair in zip(most[-1], sizes + circles_and_doubles(database.descriptors))]
    for kind in sorted(counts):
        yield kind + ": " + ", ".join("%s %d" % pair for pair in sorted(counts[kind].items()))
    for at, name in enumerate(["roles", "memberships", "descriptors"]):
        sizes = sorted(sizes[at] for sizes in most)
        yield name + ", from the fewest to the most by tenths of the databases: " + " ".join(
            "%d" % sizes[min(tenth * len(sizes) // 10, len(sizes) - 1)] for tenth in range(11))
    yield "databases with a circle of grants: %d" % sum(sizes[3] > 0 for sizes in most)
    yield "databases with a right of two grantors: %d" % sum(sizes[4] > 0 for sizes in most)


def main():
    for line in listed_answers(sys.stdin.read().splitlines()):
        print(line)


if __name__ == "__main__":
    main()
