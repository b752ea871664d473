#!/usr/bin/env python3
"""Writes a long script of five sessions over one database: generated_script.py [SEED [EVENTS]]

Without words it writes the script crates/system_tests/data/four_thousand_events.script. The same words give the same script.
Its expected answers are those of model.py.

The statements are those of random_script.py. Here the model is asked first who may do what, so that four out of five are sent
by a session that may: privileges and memberships move on, tables change, blocks come to their end. The fifth is sent by anyone.

Each command, form and operator of the grammar, as forms.py has them, stands in at least LEAST statements, and at least a third
of the statements are not refused. This is counted before the script is written, where it has EVENTS events or more; where
it does not hold, the script is not written, and another seed is to be tried.
"""
import sys

import forms
import model
from random_script import ROLES, TABLES, Script

SESSIONS = {'r': 'root', 'a': 'ann', 'b': 'bob', 'c': 'cid', 'd': 'dan'}
HEAD = '# Statements of five sessions. scripts/generated_script.py wrote them, and scripts/model.py the answers.'
EVENTS, LEAST = 4000, 40
SPARE = ['v', 'w']      # tables that are made and dropped more often than those of random_script.py
POLICIES = ['p1', 'p2', 'p3', 'p4']
NEW_ROLES = ['new1', 'new2', 'new3', 'crew', 'dan']
ATTRIBUTES = ['SUPERUSER', 'NOLOGIN', 'BYPASSRLS', 'NOSUPERUSER', 'LOGIN', 'NOBYPASSRLS']     # no two contraries are neighbours
TYPES = {'number': 'BIGINT', 'text': 'TEXT', 'bool': 'BOOLEAN'}      # by the model's names of them
AVERAGE_ROWS = 25       # a table has about so many rows: DELETE takes more where there are more


class Generated(Script):
    def __init__(self, seed):
        super().__init__(seed)
        self.server, self.numbers, self.turns = model.Server('root'), {}, {}

    def in_turn(self, *choices):
        """The choices one after the other, from call to call with the same ones."""
        self.turns[choices] = self.turns.get(choices, -1) + 1
        return choices[self.turns[choices] % len(choices)]

    # ---- what the model knows

    def state(self, who):
        return self.server.sessions.get(self.numbers.get(who))

    def seen(self, who):
        return self.server.seen(self.numbers.get(who))

    def role(self, who):
        """The current role of a session whose statements are carried out, or None."""
        session = self.state(who)
        if not session or session.block and session.block[0] == 'failed':
            return None
        db = self.seen(who)
        lives = session.login in db.roles and session.role in db.roles
        return session.role if lives and self.may_set(db, session.login, session.role) else None

    def may_set(self, db, login, role):
        return model.is_super(db, login) or model.is_in(db, login, role)

    def holder(self):
        """The session that holds the writer lock, or None."""
        held = self.server.holder
        return next((name for name, number in self.numbers.items() if held and number == held[0]), None)

    def sent_by(self, statement, may, writes=True):
        """The statement as an event of a session that may, mostly."""
        free = [who for who in 'raaabbccd' if not writes or self.holder() in (None, who)]
        able = [who for who in free if self.role(who) and may(self.seen(who), self.role(who))]
        chosen = able if able and self.chance(0.8) else free if self.chance(0.6) else list(SESSIONS)
        return '%s: %s' % (self.r.choice(chosen), statement)

    # ---- statements

    def column(self, scope, kind):
        if not any(k == kind for _, table in scope for _, k in TABLES[table]):
            return {'BIGINT': self.number(), 'TEXT': self.of("'ann'", 'current_user'), 'BOOLEAN': self.of('true', 'false')}[kind]
        return super().column(scope, kind)

    def grantees(self):
        return ', '.join(self.of('PUBLIC', 'PUBLIC', *ROLES) for _ in range(self.of(1, 1, 1, 2)))

    def create_table(self, name):
        whole = super().create_table(name).replace('BOOLEAN', self.in_turn('BOOLEAN', 'BOOL'))
        if self.chance(0.3):
            key = TABLES[name][0][0]
            whole = whole.replace(' PRIMARY KEY', '')[:-1] + ', PRIMARY KEY (%s))' % key
        return whole.replace('x BIGINT', 'x BIGINT NOT NULL') if self.chance(0.3) else whole

    def create_spare(self, name):
        """A table of two to four columns, with a key of one or two."""
        kind = lambda: self.in_turn('BIGINT', 'BOOL', 'TEXT', 'BOOLEAN') + self.of('', ' NOT NULL')
        columns = ['%s %s' % (column, kind()) for column in 'abcd'[:self.of(2, 3, 4)]]
        key = self.in_turn('', 'a', '', 'a, b')         # '' where the first column has PRIMARY KEY
        if key:
            columns.append('PRIMARY KEY (%s)' % key)
        else:
            columns[0] += ' PRIMARY KEY'
        return 'CREATE TABLE %s (%s)' % (name, ', '.join(columns))

    def with_privilege(self, statement, name, *actions):
        return self.sent_by(statement, lambda db, role: all(model.has_privilege(db, role, name, a) for a in actions),
                            writes=actions != ('SELECT',))

    def owned(self, statement, name):
        return self.sent_by(statement, lambda db, role: name in db.tables and model.acts_as_owner(db, role, db.tables[name]))

    def reading(self):
        statement = self.select()
        if ' CROSS ' not in statement and self.chance(0.6):
            statement = self.select()
        if ' FROM ' not in statement:
            return '%s: %s' % (self.of(*SESSIONS), statement)
        return self.with_privilege(statement, next((n for n in TABLES if ' FROM ' + n in statement), 't'), 'SELECT')

    def changing(self):
        kind = self.r.random()
        rows = sum(len(table.rows) for table in self.server.committed.tables.values())
        if kind < 0.35 * rows / AVERAGE_ROWS / len(TABLES):
            statement = self.delete()
            return self.with_privilege(statement, statement.split()[2], 'DELETE', 'SELECT')
        if kind < 0.6:
            statement = self.insert()
            return self.with_privilege(statement, statement.split()[2], 'INSERT')
        statement = self.update()
        if self.chance(0.15):
            statement = statement.split(' WHERE ')[0]
        return self.with_privilege(statement, statement.split()[1], 'UPDATE', 'SELECT')

    def actions(self):
        return 'ALL' if self.chance(0.1) else super().actions()

    def granting(self):
        statement = self.grant() if self.chance(0.52) else self.revoke()
        if ' ALL ' in statement:
            statement = statement.replace(' PRIVILEGES', '').replace(' ALL ', self.in_turn(' ALL ', ' ALL PRIVILEGES '))
        name = statement.split(' ON ')[1].replace('TABLE ', '').split()[0]
        actions = [a for a in model.ACTIONS if a in statement.split(' ON ')[0]] or model.ACTIONS
        may = lambda db, role: name in db.tables and any(model.acting_grantor(db, role, name, a) for a in actions)
        return self.sent_by(statement, may)

    def joining(self):
        """Mostly a GRANT that makes no cycle, or a REVOKE of a membership that is there."""
        kind = 'GRANT' if self.chance(0.45) else 'REVOKE'
        while True:
            statement = self.membership()
            roles, members = self.joined(statement)
            if statement.startswith(kind) and (self.chance(0.05) or self.is_of_use(kind, roles, members)):
                return self.sent_by(statement, lambda db, role: all(model.may_grant_role(db, role, r) for r in roles))

    def joined(self, statement):
        """The roles and the members that a GRANT or REVOKE names."""
        words = statement.replace(',', '').replace('ADMIN OPTION FOR ', '').split()
        at = words.index('TO') if 'TO' in words else words.index('FROM')
        return words[1:at], [word for word in words[at + 1:] if word in ROLES]

    def is_of_use(self, kind, roles, members):
        db = self.server.committed
        if kind == 'REVOKE':
            return any((role, member) in db.memberships for role in roles for member in members)
        return not any(model.is_in(db, role, member) for role in roles for member in members)

    def guarding(self):
        name = self.table()
        if self.chance(0.41):
            what = self.in_turn('ENABLE', 'FORCE', 'ENABLE', 'DISABLE', 'NO FORCE')
            return self.owned('ALTER TABLE %s %s ROW LEVEL SECURITY' % (name, what), name)
        there = list(self.server.committed.tables[name].policies) if name in self.server.committed.tables else []
        if self.chance(0.3):
            return self.owned('DROP POLICY %s ON %s' % (self.of(*there) if there and self.chance(0.8) else self.of(*POLICIES), name), name)
        free = [policy for policy in POLICIES if policy not in there]
        policy = self.of(*free) if free and self.chance(0.8) else self.of(*POLICIES)
        return self.owned(self.new_policy(policy, name, self.in_turn('', 'ALL', *model.ACTIONS)), name)

    def populating(self):
        """The beginning or the end of a role."""
        name = self.of(*NEW_ROLES)
        is_there = name in self.server.committed.roles
        if self.chance(0.7 if is_there else 0.05):
            return self.sent_by('DROP ROLE ' + name, lambda db, role: model.is_super(db, role))
        attributes = [self.in_turn(*ATTRIBUTES) for _ in range(self.of(1, 2, 2, 3))]
        statement = 'CREATE ROLE %s %s%s' % (name, self.of('', 'WITH '), ' '.join(attributes))
        return self.sent_by(statement, lambda db, role: model.is_super(db, role))

    def defining(self):
        """The beginning or the end of a table, or what comes between them of a spare one."""
        if not self.chance(0.1):
            return self.using_spare(self.of(*SPARE))
        name = self.of(*TABLES)
        if name in self.server.committed.tables:
            return self.owned('DROP TABLE ' + name, name)
        return self.sent_by(self.create_table(name), lambda db, role: name not in db.tables)

    def using_spare(self, name):
        table = self.server.committed.tables.get(name)
        if not table or self.chance(0.1):
            return self.sent_by(self.create_spare(name), lambda db, role: name not in db.tables)
        kind = self.r.random()
        if kind < 0.4:
            return self.owned('DROP TABLE ' + name, name)
        if kind < 0.72:
            return self.with_privilege('DELETE FROM ' + name, name, 'DELETE')
        if kind < 0.8:
            return self.with_privilege('SELECT * FROM ' + name, name, 'SELECT')
        row = ', '.join(self.value(TYPES[column_kind]) for _, column_kind, _ in table.columns)
        return self.with_privilege('INSERT INTO %s VALUES (%s)' % (name, row), name, 'INSERT')

    def setting(self):
        who = self.of(*'abcd')
        session, db = self.state(who), self.seen(who)
        able = [role for role in db.roles if session and self.may_set(db, session.login, role)]
        if self.chance(0.45):
            return '%s: %s' % (who, self.in_turn('RESET ROLE', 'SET ROLE NONE'))
        return '%s: SET ROLE %s' % (who, self.r.choice(able) if able and self.chance(0.7) else self.of(*ROLES))

    def begin(self):
        return self.in_turn('BEGIN', 'BEGIN WORK', 'START TRANSACTION', 'BEGIN TRANSACTION')

    def end(self, commit_chance):
        word = 'COMMIT' if self.chance(commit_chance) else 'ROLLBACK'
        return word + (self.in_turn('', ' WORK', ' TRANSACTION') if word == 'COMMIT' else self.in_turn(' TRANSACTION', '', ' WORK'))

    def bounding(self):
        """The begin or the end of a block."""
        who = self.of(*'raabbcd')
        if self.state(who) and self.state(who).block and self.chance(0.9):
            return '%s: %s' % (who, self.end(0.45))
        return '%s: %s' % (who, self.begin() if self.chance(0.85) else self.end(0.45))

    def connecting(self):
        who = self.of(*'abcd')
        if self.state(who) and self.chance(0.85):
            return 'close ' + who
        return 'open %s %s' % (who, SESSIONS[who] if self.chance(0.85) else self.of('team', 'nobody', 'new1'))

    def failing(self):
        who = self.of(*SESSIONS)
        statement = self.of('SELECT', 'SELECT 1 +', 'GRANT', 'SELECT k FROM nowhere', 'DROP ROLE nobody', "SELECT 'a", 'SELECT 1x',
                            'CREATE ROLE new1 LOGIN NOLOGIN', 'SELECT zz FROM t', 'SET ROLE nobody', 'DROP POLICY p9 ON t')
        return '%s: %s' % (who, statement)

    # ---- events

    def next_event(self):
        holder = self.holder()
        if holder and self.chance(0.5 if self.state(holder).block[0] == 'failed' else 0.2):
            return '%s: %s' % (holder, self.end(0.7))
        kinds = [(0.2, self.reading), (0.17, self.changing), (0.14, self.granting), (0.1, self.joining), (0.23, self.guarding),
                 (0.11, self.populating), (0.09, self.defining), (0.075, self.setting), (0.13, self.bounding), (0.02, self.connecting),
                 (0.01, self.failing)]
        return self.r.choices([make for _, make in kinds], [weight for weight, _ in kinds])[0]()

    def filled(self, owner, name):
        """A new table with a policy and some rows."""
        condition = 'w > 1' if name == 'n' else 'o = current_user OR k > 20'
        yield '%s: %s' % (owner, self.create_table(name))
        yield '%s: GRANT ALL ON %s TO bob WITH GRANT OPTION' % (owner, name)
        yield '%s: GRANT SELECT, INSERT, UPDATE ON %s TO %s' % (owner, name, self.grantees())
        yield '%s: CREATE POLICY own ON %s USING (%s)' % (owner, name, condition)
        yield '%s: ALTER TABLE %s ENABLE ROW LEVEL SECURITY' % (owner, name)
        for _ in range(4):
            yield '%s: %s' % (owner, self.insert_into(name))

    def insert_into(self, name):
        while True:
            statement = self.insert()
            if statement.startswith('INSERT INTO %s ' % name):
                return statement

    def setup(self):
        for event in super().setup():
            if 'TABLE' not in event and ' ON ' not in event:
                yield event
        for name in TABLES:
            yield from self.filled('a', name)

    def repair(self, server, who, answer):
        """What is likely to come after a refusal."""
        login = SESSIONS[who]
        if answer == 'refused 08003' and self.chance(0.6):
            return ['open %s %s' % (who, login)]
        if answer == 'refused 28000' and self.chance(0.6):
            return ['r: CREATE ROLE %s LOGIN' % login] + (['close ' + who] if self.state(who) else []) + ['open %s %s' % (who, login)]
        if answer == 'refused 25P02' and self.chance(0.7):
            return ['%s: %s' % (who, self.end(0.4))]
        if answer == 'refused 42P01' and self.chance(0.6):
            name = self.of(*[name for name in TABLES if name not in self.seen(who).tables] or TABLES)
            owner = self.of('a', 'a', 'a', who)
            return [event for event in self.filled(owner, name) if self.chance(0.9)]
        if answer == 'refused 42501' and self.state(who) and self.role(who) is None and self.chance(0.6):
            return [who + ': RESET ROLE']
        return []

    def spelled(self, event):
        """The event, where some of its signs are spelled otherwise."""
        return event.replace('<>', '!=') if self.chance(0.5) else event

    def events(self, count):
        made, wanted = [], list(self.setup())
        while len(made) < count:
            event = self.spelled(wanted.pop(0) if wanted else self.next_event())
            who, answer = self.run(self.server, event)
            made.append(event)
            if not wanted:
                wanted = self.repair(self.server, who, answer)
        return made


def script(seed=24, count=EVENTS):
    lines = [HEAD] + Generated(seed).events(count)
    if count >= EVENTS:
        check(lines)
    return lines


def check(lines):
    """That each form stands in enough statements, and enough of these are not refused."""
    counts, statements, carried_out = forms.count(lines)
    rare = {form: number for form, number in counts.items() if number < LEAST}
    assert not rare, f'these stand in less than {LEAST} statements: {rare}'
    assert 3 * carried_out >= statements, f'of {statements} statements only {carried_out} are not refused'


if __name__ == '__main__':
    sys.setrecursionlimit(100000)
    for line in script(*map(int, sys.argv[1:])):
        print(line)
