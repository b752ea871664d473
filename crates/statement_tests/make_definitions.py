#!/usr/bin/env python3
"""Makes the lines of the part `definitions` of this crate's program:

    python3 make_definitions.py

These are:

- The examples of examples.txt, written by hand, each with what a reader would expect of it.
- From fixed seeds, 400 statements of every kind that defines something, over one database of up to 8 roles and 6 tables, whose
  definitions are then written out.
- 1,000 graphs, each over a database of its own: 2 to 12 roles, of which r0 and one in eight of the others are
  superusers; one table or two; up to 40 memberships, few in most graphs; and up to 40 privilege descriptors, of one
  action, of two or of all four. Memberships and descriptors are granted in mixed order, so that some roles grant for
  themselves and some for a role that they are in. Privileges are mostly granted by a role that may, often by one to
  which they were granted last: there are long chains, circles, and rights that come from several grantors. Then each
  graph is changed by one statement of each of the nine OPERATIONS, in any order, and in one of four graphs a table is
  created, altered or dropped. Those who issue them may in some cases and may not in others, and of what they name most
  is there.
- 400 statements more over one database, of which GRANT and REVOKE also name columns. After each it is asked whether a role may
  issue a statement over rows.
- 400 graphs more, over tables of two columns or three, with up to 60 descriptors, of whole tables and of columns. After each
  change two such questions are asked.
"""
import os

from definitions import ACTIONS, Database, supports

EXAMPLES = os.path.join(os.path.dirname(os.path.abspath(__file__)), "examples.txt")
SEED = 20160603  # of the statements of every kind
STATEMENTS = 400
GRAPHS_SEED = 20160601
GRAPHS = 1000
COLUMNS_SEED = 20160607  # of the statements that name columns too
COLUMN_GRAPHS_SEED = 20160608
COLUMN_GRAPHS = 400
ROLES = 12  # the most of a graph
EDGES = 40  # the most memberships of a graph that is made, and the most descriptors
COLUMN_EDGES = 60  # the most descriptors, where some are of columns
ATTRIBUTES = ["SUPERUSER", "NOSUPERUSER", "LOGIN", "NOLOGIN", "BYPASSRLS", "NOBYPASSRLS"] + [""] * 6
TYPES = ["BIGINT", "TEXT", "BOOLEAN", "BOOL"]
CHANGES = ["ENABLE", "DISABLE", "FORCE", "NO FORCE"]
BEHAVIORS = ["", " RESTRICT", " CASCADE"]
OPERATIONS = ["GRANT ROLE", "REVOKE ROLE", "REVOKE ADMIN OPTION FOR", "GRANT", "REVOKE RESTRICT", "REVOKE CASCADE",
              "REVOKE GRANT OPTION FOR RESTRICT", "REVOKE GRANT OPTION FOR CASCADE", "DROP ROLE"]
KINDS = (["CREATE ROLE"] * 2 + ["DROP ROLE"] + ["GRANT ROLE"] * 2 + ["REVOKE ROLE"] + ["CREATE TABLE"] * 3
         + ["ALTER TABLE", "DROP TABLE"] + ["GRANT"] * 8 + ["REVOKE"] * 5)
ABSENT = "c9"  # the name of no column


# ---- random numbers, by a linear congruential generator over 64 bits

class Random:
    def __init__(self, seed):
        self.state = seed

    def below(self, count):
        self.state = (self.state * 6364136223846793005 + 1442695040888963407) % 2**64
        return (self.state >> 32) % count if count > 0 else 0

    def one_in(self, count):
        return self.below(count) == 0

    def pick(self, things):
        return things[self.below(len(things))]

    def some(self, things, most):
        """At least one of the things and at most so many, each once, in any order."""
        left = list(things)
        return [left.pop(self.below(len(left))) for _ in range(min(1 + self.below(most), len(left)))]


# ---- statements of every kind

def listed(random, most, item):
    return ", ".join([item() for _ in range(1 + random.below(most))])


def random_statement(random, roles, tables, names_columns):
    """A statement of any kind. The roles and tables that it names are mostly such as are there."""
    def there(letter, count, names):
        if not random.one_in(10):
            at = random.below(len(names))
            if at < len(names):
                return names[at]
        return letter + "%d" % random.below(count)

    def role():
        return there("r", 8, roles)

    def grantee():
        return "PUBLIC" if random.one_in(12) else role()

    def table():
        return there("t", 6, tables)

    def key_column():
        return "c%d" % random.below(3)

    def option(text):
        return "" if random.one_in(3) else text

    def columns(of_eight):
        return " (" + listed(random, 3, key_column) + ")" if names_columns and random.below(8) < of_eight else ""

    def action():
        word = random.pick(ACTIONS)
        return word + columns(1 if word == "DELETE" else 5)

    def privileges():
        return "ALL" + columns(5) if random.one_in(3) else listed(random, 3, action)

    kind = random.pick(KINDS)
    if kind == "CREATE ROLE":
        text = "CREATE ROLE r%d" % random.below(8)
        for _ in range(2):
            text += (" " + random.pick(ATTRIBUTES)).rstrip()
    elif kind == "DROP ROLE":
        text = "DROP ROLE " + role()
    elif kind == "GRANT ROLE":
        text = "GRANT " + listed(random, 2, role)
        text += " TO " + listed(random, 2, role)
        text += option(" WITH ADMIN OPTION")
    elif kind == "REVOKE ROLE":
        text = "REVOKE " + ("ADMIN OPTION FOR " if random.one_in(2) else "")
        text += listed(random, 2, role)
        text += " FROM " + listed(random, 2, role)
        text += random.pick(BEHAVIORS)
    elif kind == "CREATE TABLE":
        text = "CREATE TABLE t%d (" % random.below(6)
        marked = random.one_in(2)
        for at in range(17 if random.one_in(16) else 1 + random.below(3)):
            text += ", " if at > 0 else ""
            text += key_column() if random.one_in(16) else "c%d" % at
            text += " " + random.pick(TYPES)
            text += " PRIMARY KEY" if marked and at == 0 else ""
            text += " NOT NULL" if random.one_in(3) else ""
        if random.one_in(10) == marked:
            text += ", PRIMARY KEY (" + listed(random, 2, key_column) + ")"
        text += ")"
    elif kind == "ALTER TABLE":
        text = "ALTER TABLE " + table()
        text += " " + random.pick(CHANGES) + " ROW LEVEL SECURITY"
    elif kind == "DROP TABLE":
        text = "DROP TABLE " + table()
    elif kind == "GRANT":
        text = "GRANT " + privileges()
        text += " ON " + table()
        text += " TO " + listed(random, 2, grantee)
        text += option(" WITH GRANT OPTION")
    else:
        text = "REVOKE " + ("GRANT OPTION FOR " if random.one_in(2) else "")
        text += privileges()
        text += " ON " + table()
        text += " FROM " + listed(random, 2, grantee)
        text += random.pick(BEHAVIORS)
    return text


# ---- statements over rows, which are asked for

class Asking:
    """Statements over rows of the tables of a database. What they name is mostly there."""

    def __init__(self, random, database):
        self.random = random
        self.columns = {table: database.columns(table) for table in sorted(database.tables)}

    def table(self):
        return self.random.pick(sorted(self.columns))

    def column(self, table):
        return ABSENT if self.random.one_in(40) else self.random.pick(self.columns[table])

    def statement(self):
        kind = self.random.pick(["SELECT", "SELECT", "SELECT", "INSERT", "INSERT", "UPDATE", "UPDATE", "DELETE"])
        if kind == "SELECT":
            return self.query()
        table = self.table()
        if kind == "INSERT":
            return self.insert(table)
        text = "DELETE FROM " + table if kind == "DELETE" else "UPDATE " + table + " SET " + self.assignments(table)
        return text + self.condition(" WHERE ", [(table, "")])

    def insert(self, table):
        """With a list of columns, or with as many values as there are columns, fewer, or one too many."""
        columns = self.columns[table]
        width = 1 + self.random.below(len(columns) + (1 if self.random.one_in(8) else 0))
        text = "INSERT INTO " + table
        if not self.random.one_in(3):
            listed_columns = self.random.some(columns, len(columns))
            listed_columns += [self.column(table)] if self.random.one_in(12) else []
            width = len(listed_columns)
            text += " (" + ", ".join(listed_columns) + ")"
        return text + " VALUES (" + ", ".join(["NULL"] * width) + ")"

    def assignments(self, table):
        columns = self.random.some(self.columns[table], 3)
        columns += [self.column(table)] if self.random.one_in(12) else []
        values = [self.random.pick(["NULL", "NULL", column, self.column(table)]) for column in columns]
        return ", ".join(column + " = " + value for column, value in zip(columns, values))

    def tested(self, scope):
        """Whether some column is null, of tables that each have a prefix for the names of their columns."""
        table, prefix = self.random.pick(scope)
        return prefix + self.column(table) + self.random.pick([" IS NULL", " IS NOT NULL"])

    def condition(self, word, scope):
        return self.random.pick(["", word + self.tested(scope)])

    def query(self):
        scope = [(self.table(), "")]
        source = scope[0][0]
        if self.random.one_in(2):
            scope, source = self.two_tables()
        counts = self.random.one_in(4)
        listed_values = "count(*)" if counts else self.random.pick(["*", "1", listed(self.random, 2, lambda: self.tested(scope))])
        text = "SELECT " + listed_values + " FROM " + source + self.condition(" WHERE ", scope)
        if not counts:
            text += self.condition(" ORDER BY ", scope) + self.random.pick(["", " LIMIT 0"])
        return text

    def two_tables(self):
        """Two tables, or one twice: under their names, under two others, or each under the name of the other one."""
        tables = [self.table(), self.table()]
        aliases = self.random.pick([["a", "b"], tables, tables[::-1]]) if tables[0] != tables[1] else ["a", "b"]
        scope = [(table, alias + ".") for table, alias in zip(tables, aliases)]
        first, second = [table if table == alias else table + " " + alias for table, alias in zip(tables, aliases)]
        join = self.random.pick([", ", " CROSS JOIN ", " JOIN "])
        return scope, first + join + second + (" ON " + self.tested(scope) if join == " JOIN " else "")


# ---- graphs

class Graph:
    """A database that random statements make and change. Each goes to the script, which carries it out.

    What GRANT and REVOKE name are rights, an action with a column each. Here all are on whole tables, and the column is ""."""
    columns = "c0 BIGINT PRIMARY KEY"  # of each table
    edges = EDGES  # the most descriptors
    grants = 8  # the most GRANTs that make the graph

    def __init__(self, random, script):
        self.random = random
        self.script = script
        self.database = script.new()
        self.tables = ["t0", "t1"][:1 + random.below(2)]
        self.last = None  # the role to which privileges were granted last

    def say(self, current, text):
        session = self.role() if self.random.one_in(4) else "r0"
        return self.script.say(session, current, text)

    # ---- what statements name

    def roles(self):
        return sorted(self.database.roles)

    def role(self):
        return self.random.pick(self.roles())

    def role_or_none(self):
        """A role, or in one of 16 cases a name that may be no role."""
        return "r%d" % self.random.below(ROLES + 1) if self.random.one_in(16) else self.role()

    def some_roles(self, most):
        return [self.role_or_none() for _ in range(1 + self.random.below(most))]

    def grantees(self, most):
        return ["PUBLIC" if self.random.one_in(12) else self.role_or_none() for _ in range(1 + self.random.below(most))]

    def actions(self):
        return self.random.some(self.focus, len(self.focus))

    def rights(self):
        """Some, of the actions that this graph has."""
        return self.on_tables(self.actions())

    def rights_with(self, action, _):
        """The right and mostly others."""
        return self.on_tables([action] if self.random.one_in(3) else [action] + [a for a in self.actions() if a != action])

    def any_rights(self):
        """Some, of any action."""
        return self.on_tables(self.random.some(ACTIONS, 4))

    def on_tables(self, actions):
        return [(action, "") for action in actions]

    def written(self, rights):
        """A list of rights; one of all four is mostly written as ALL."""
        return "ALL" if len(rights) == 4 and not self.random.one_in(4) else ", ".join(action for action, _ in rights)

    def table(self):
        return "t2" if self.random.one_in(32) else self.random.pick(self.tables)

    # ---- who issues them

    def superuser(self):
        return self.random.pick([role for role in self.roles() if self.database.is_superuser(role)])

    def administrator(self):
        """One who may grant some role, where there is one."""
        members = sorted({member for (_, member), admin in self.database.memberships.items() if admin})
        return self.random.pick(members) if members else self.superuser()

    def role_issuer(self):
        return self.random.pick([self.superuser, self.administrator, self.role])()

    def lent(self):
        """As held, of the roles that grant for another one, which is one of several that they are in."""
        descriptors = self.database.descriptors
        lent = []
        for role in self.roles():
            above = self.database.roles_of(role, self.database.memberships)
            for t, a, c in sorted({key[:3] for key in descriptors}):
                holders = {to for (t2, a2, c2, _, to), grantable in descriptors.items()
                           if grantable and (t2, a2) == (t, a) and c2 in ("", c)}
                if role not in holders and len(holders & above) > 1 and not self.owns(role, t):
                    lent.append((t, role, a, c))
        return lent

    def owns(self, role, table):
        return self.database.acts_as(role, self.database.tables[table]["owner"])

    def held(self):
        """A table, one who may grant a right on it, its action and its column: often who was granted something last."""
        lent = self.lent()
        if lent and self.random.one_in(2):
            return self.random.pick(lent)
        held = sorted((t, to, a, c) for (t, a, c, _, to), grantable in self.database.descriptors.items() if grantable and to)
        of_last = [found for found in held if found[1] == self.last]
        if of_last and self.random.one_in(2):
            return self.random.pick(of_last)
        return self.random.pick(held) if held else (self.table(), self.role(), self.random.pick(ACTIONS), "")

    # ---- making the graph

    def make(self):
        random = self.random
        for number in range(1, 2 + random.below(ROLES - 1)):
            self.script.say("r0", "r0", "CREATE ROLE r%d" % number + (" SUPERUSER" if random.one_in(8) else ""))
        for table in self.tables:
            self.script.say("r0", self.role(), "CREATE TABLE %s (%s)" % (table, self.columns))
        self.focus = random.pick([random.some(ACTIONS, 1), random.some(ACTIONS, 2), ACTIONS, ACTIONS])
        self.order = self.shuffled(self.roles())  # memberships lead from a role to earlier ones
        self.few = random.pick([1, 2, 4, 8])
        self.width = random.pick([1, 3, 4, 6])
        links = random.below(6)
        grants = random.below(self.grants + 1)
        for step in self.shuffled([self.link] * links + [self.hand_on] * grants):
            step()

    def shuffled(self, things):
        left = list(things)
        return [left.pop(self.random.below(len(left))) for _ in range(len(left))]

    def link(self):
        """Some roles, in the order of the graph, to some later ones: so there is no circle."""
        cut = 1 + self.random.below(len(self.order) - 1)
        roles = self.random.some(self.order[:cut], self.few)
        members = self.random.some(self.order[cut:], self.few)
        new = {(role, member) for role in roles for member in members} - set(self.database.memberships)
        if len(self.database.memberships) + len(new) <= EDGES:
            issuer = self.administrator() if self.random.one_in(4) else self.superuser()
            option = "" if self.random.one_in(2) else " WITH ADMIN OPTION"
            self.say(issuer, "GRANT " + ", ".join(roles) + " TO " + ", ".join(members) + option)

    def hand_on(self):
        """Privileges by one who may grant some, to any."""
        table, issuer, action, column = self.held()
        issuer = self.role() if self.random.one_in(8) else issuer
        rights = self.rights_with(action, column)
        grantees = self.grantees(self.width)
        option = "" if "PUBLIC" in grantees or self.random.one_in(4) else " WITH GRANT OPTION"
        if len(self.database.descriptors) + len(rights) * len(set(grantees)) <= self.edges:
            self.say(issuer, "GRANT " + self.written(rights) + " ON " + table + " TO " + ", ".join(grantees) + option)
            self.last = self.random.pick(grantees)

    # ---- changing it

    def change(self):
        for kind in self.shuffled(OPERATIONS):
            self.change_by(kind)
        if self.random.one_in(4):
            self.change_table()

    def change_by(self, kind):
        if kind == "GRANT ROLE":
            self.grant_roles()
        elif kind == "REVOKE ROLE":
            self.revoke_roles("")
        elif kind == "REVOKE ADMIN OPTION FOR":
            self.revoke_roles("ADMIN OPTION FOR ")
        elif kind == "GRANT":
            self.grant()
        elif kind == "DROP ROLE":
            self.drop_role()
        else:
            option = "GRANT OPTION FOR " if "OPTION" in kind else ""
            self.revoke(option, " CASCADE" if "CASCADE" in kind else self.random.pick(BEHAVIORS[:2]))

    def grant_roles(self):
        roles = self.some_roles(3)
        members = self.some_roles(3)
        if self.random.one_in(2):
            cut = 1 + self.random.below(len(self.order) - 1)
            roles = self.random.some(self.order[:cut], 3)
            members = self.random.some(self.order[cut:], 3)
        option = self.random.pick(["", " WITH ADMIN OPTION"])
        self.say(self.role_issuer(), "GRANT " + ", ".join(roles) + " TO " + ", ".join(members) + option)

    def revoke_roles(self, option):
        roles = self.some_roles(2)
        members = self.some_roles(2)
        there = sorted(self.database.memberships)
        if there and not self.random.one_in(4):
            role, member = self.random.pick(there)
            roles = [role] if self.random.one_in(2) else roles + [role]
            members = [member] if self.random.one_in(2) else [member] + members
        behavior = self.random.pick(BEHAVIORS)
        self.say(self.role_issuer(),
                 "REVOKE " + option + ", ".join(roles) + " FROM " + ", ".join(members) + behavior)

    def grant(self):
        table, issuer, action, column = self.held()
        issuer = self.random.pick([issuer, self.role()])
        table = self.table() if self.random.one_in(8) else table
        rights = self.any_rights() if self.random.one_in(3) else self.rights_with(action, column)
        option = self.random.pick(["", " WITH GRANT OPTION"])
        self.say(issuer, "GRANT " + self.written(rights) + " ON " + table
                 + " TO " + ", ".join(self.grantees(3)) + option)

    def revoke(self, option, behavior):
        """Mostly of a descriptor that is there, by its grantor, by a role in that one, or by any."""
        table = self.table()
        rights = self.any_rights() if self.random.one_in(3) else self.rights()
        grantees = self.grantees(2)
        issuer = self.role()
        there = sorted(key for key in self.database.descriptors if key[3])
        handed_on = [key for key in there if any(supports(key, other) for other in there)]
        if there and not self.random.one_in(5):
            there = handed_on if handed_on and self.random.one_in(2) else there
            table, action, column, grantor, grantee = self.random.pick(there)
            rights = self.rights_with(action, column)
            grantee = grantee or "PUBLIC"
            grantees = grantees + [grantee] if self.random.one_in(3) else [grantee]
            for_it = [role for role in self.roles() if self.database.is_in(role, grantor)]
            issuer = self.random.pick([grantor, grantor, self.random.pick(for_it), issuer])
        self.say(issuer, "REVOKE " + option + self.written(rights) + " ON " + table + " FROM " + ", ".join(grantees)
                 + behavior)

    def drop_role(self):
        """Mostly of a role that owns nothing."""
        owners = [table["owner"] for table in self.database.tables.values()]
        free = [role for role in self.roles() if role not in owners + ["r0"]]
        role = self.random.pick(free) if free and not self.random.one_in(4) else self.role_or_none()
        self.say(self.role() if self.random.one_in(3) else self.superuser(), "DROP ROLE " + role)

    def change_table(self):
        table = self.table()
        current = self.random.pick([self.role, self.superuser])()
        text = self.random.pick(["CREATE TABLE %s (c0 TEXT, c1 BOOLEAN, PRIMARY KEY (c1, c0))", "DROP TABLE %s",
                                 "ALTER TABLE %s " + self.random.pick(CHANGES) + " ROW LEVEL SECURITY"])
        self.say(current, text % table)


class ColumnGraph(Graph):
    """A graph of rights on whole tables and on columns."""
    edges = COLUMN_EDGES
    grants = 16

    def __init__(self, random, script):
        super().__init__(random, script)
        self.names = ["c0", "c1", "c2"][:2 + random.below(2)]
        self.columns = ", ".join(name + " BIGINT" for name in self.names) + ", PRIMARY KEY (c0)"

    def change_by(self, kind):
        super().change_by(kind)
        for _ in range(2):
            self.script.ask(self.random)

    # ---- what statements name

    def on(self, action, column):
        """An action on this column, or on the table, or on some columns."""
        if action == "DELETE":
            return [(action, self.names[0] if self.random.one_in(40) else "")]
        if self.random.one_in(3):
            return [(action, column)]
        if self.random.one_in(3):
            return [(action, "")]
        names = self.names + [ABSENT] if self.random.one_in(40) else self.names
        others = self.random.some(names, len(names))
        return [(action, name) for name in ([column] if column else []) + others]

    def rights(self):
        return [right for action in self.actions() for right in self.on(action, "")]

    def rights_with(self, action, column):
        """The right or ones near it, mostly others too, and of one action sometimes both the table and columns."""
        if self.random.one_in(6):
            return self.any_rights()
        rights = self.on(action, column)
        rights += self.on(action, column) if self.random.one_in(4) else []
        others = [] if self.random.one_in(3) else [a for a in self.actions() if a != action]
        return rights + [right for other in others for right in self.on(other, "")]

    def any_rights(self):
        """All of the table, all of some columns, or some."""
        columns = self.random.some(self.names, len(self.names))
        all_of_columns = [(action, column) for action in ACTIONS[:3] for column in columns]
        return self.random.pick([self.on_tables(ACTIONS), all_of_columns, self.rights()])

    def written(self, rights):
        """A list of rights; all of a table and all of columns are mostly written as ALL."""
        columns = [column for action, column in rights if action == "SELECT"]
        if rights == self.on_tables(ACTIONS) and not self.random.one_in(4):
            return "ALL"
        if rights == [(action, column) for action in ACTIONS[:3] for column in columns] and "" not in columns:
            if not self.random.one_in(4):
                return "ALL" + self.random.pick(["", " PRIVILEGES"]) + " (" + ", ".join(columns) + ")"
        items = []
        for action, column in rights:
            if items and column and items[-1][0] == action and items[-1][1]:
                items[-1][1].append(column)
            else:
                items.append((action, [column] if column else []))
        return ", ".join(action + (" (" + ", ".join(columns) + ")" if columns else "") for action, columns in items)


# ---- the lines

class Script:
    """Lines of statements, which are carried out as they come."""

    def __init__(self):
        self.lines = []

    def new(self):
        self.lines.append("new")
        self.database = Database("r0")
        return self.database

    def say(self, session, current, text):
        self.lines.append(session + " " + current + ": " + text)
        return self.database.answer(current, session, text)

    def ask(self, random):
        """Whether a role, mostly no superuser, may issue a statement over rows, where there are tables."""
        roles = sorted(self.database.roles)
        others = [role for role in roles if not self.database.is_superuser(role)]
        role = random.pick(others if others and not random.one_in(16) else roles)
        if self.database.tables:
            self.lines.append("may " + role + ": " + Asking(random, self.database).statement())


def push_statements(script, random, names_columns):
    database = script.new()
    for _ in range(STATEMENTS):
        roles = sorted(database.roles)
        current = random.pick(roles)
        session = random.pick(roles)
        script.say(session, current, random_statement(random, roles, sorted(database.tables), names_columns))
        if names_columns:
            script.ask(random)
    script.lines.append("definitions")


def push_graphs(script, random, kind, count):
    for _ in range(count):
        graph = kind(random, script)
        graph.make()
        graph.change()


def main():
    script = Script()
    script.lines = open(EXAMPLES).read().splitlines()
    push_statements(script, Random(SEED), False)
    push_graphs(script, Random(GRAPHS_SEED), Graph, GRAPHS)
    push_statements(script, Random(COLUMNS_SEED), True)
    push_graphs(script, Random(COLUMN_GRAPHS_SEED), ColumnGraph, COLUMN_GRAPHS)
    for line in script.lines:
        print(line)


main()
