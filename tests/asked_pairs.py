"""Pairs of scripts of one session, bob's, in which what is hidden from it is found out by asking, and not by the model: for tests/tenants.py.

As bob, under each role that he may set, each row is asked for by its key, alone in its table, and it is seen whether the guards of SELECT,
UPDATE and DELETE fail on it. There are two kinds of pairs:

- one session: the same definitions, and databases that differ only in rows that are hidden from all roles that bob may set, and on which
  no guard fails. Then come bob's events.
- one session beside others: one script has events of other sessions between bob's, each of which leaves what his roles see as it was; the
  other script has bob's events alone.

Bob's answers must be the same in both scripts, up to the first event that one alone answers 23505, and that others hold the writer lock against
(55P03). Policies are of every kind, or FOR ALL without WITH CHECK, or these over columns of the key alone: then there is no exception for
23505. A third of the pairs is of each. Bob's UPDATE and DELETE read a column where policies are of every kind.
"""
import collections
import os

from program import of_program
from tenant_worlds import model
from world_scripts import ANY, FOR_ALL, LETTERS, OF_KEYS, OTHERS, ROLES, World

POLICIES = [ANY, FOR_ALL, OF_KEYS]
FAILURES = ('refused 22003', 'refused 22012')
ALONE, BESIDE_OTHERS = 'one session', 'one session beside others'
# What a kind is called where its worlds are made: the scripts in crates/system_tests/data/ were made under these names.
NAMES = {ALONE: 'two worlds', BESIDE_OTHERS: 'others'}


def of_model(lines):
    return model.run('\n'.join(lines))


class AskedPair:
    """A world, and what is asked of it."""

    def __init__(self, seed, number, kind, ask, events):
        self.policies = POLICIES[number % 3]
        self.ask, self.kind, self.events = ask, kind, events
        self.world = World('%s %s %s' % (seed, NAMES[kind], number), self.policies, kind == BESIDE_OTHERS)
        self.definitions = list(self.world.definitions())
        self.may_ask = ['r: GRANT ALL ON %s TO PUBLIC' % table.name for table in self.world.tables]
        self.roles = self.settable()

    def settable(self):
        """The roles that bob may act as."""
        answers = self.ask(self.definitions + ['open b bob'] + ['b: SET ROLE ' + role for role in ROLES])
        return [role for role, answer in zip(ROLES, answers[-len(ROLES):]) if answer == 'ok SET']

    # ---- hidden rows

    def questions(self, table, key, row):
        """Asks for a row that is alone in its table: under each role for SELECT, and for UPDATE and DELETE that read nothing."""
        name = table.name
        lines = ['r: INSERT INTO %s VALUES %s' % (name, row)]
        for role in self.roles:
            lines += ['b: SET ROLE ' + role, 'b: SELECT * FROM %s WHERE %s' % (name, key), 'b: BEGIN',
                      'b: UPDATE %s SET %s = NULL' % (name, table.free()), 'b: ROLLBACK', 'b: BEGIN', 'b: DELETE FROM ' + name,
                      'b: ROLLBACK']
        return lines + ['r: DELETE FROM ' + name]

    def silent(self, answers):
        """Whether the row of these answers is hidden from each role, and no guard fails on it."""
        assert answers[0] == 'ok INSERT 1' and answers[-1].startswith('ok DELETE'), answers
        shown, others = answers[2::8], answers[4::8] + answers[7::8]
        return all(answer == 'rows 0' for answer in shown) and not any(answer in FAILURES for answer in others)

    def hidden_rows(self):
        """By table and key the rows that could stand there, each with whether it is hidden."""
        asked = [(table, key, row) for table in self.world.tables for key, rows in self.world.rows(table).items() for row in rows]
        lists = [self.questions(*row) for row in asked]
        answers = self.ask(self.definitions + self.may_ask + ['open b bob'] + [line for lines in lists for line in lines])
        answers = answers[len(self.definitions + self.may_ask) + 1:]
        found = collections.defaultdict(list)
        for (table, key, row), lines in zip(asked, lists):
            found[table.name, key].append((row, self.silent(answers[:len(lines)])))
            answers = answers[len(lines):]
        return found

    def usual(self, rows):
        """One of the rows that could stand at a key, one that is not hidden where there is one."""
        return self.world.of(*([row for row, silent in rows if not silent] or [row for row, _ in rows]))

    # ---- the scripts

    def scripts(self):
        return self.alone() if self.kind == ALONE else self.beside_others()

    def alone(self):
        """The lines of both scripts, where their databases differ, and from where on bob's events stand."""
        one, other = [], []
        for (name, _), rows in self.hidden_rows().items():
            hidden = [row for row, silent in rows if silent]
            if not hidden or self.world.chance(0.5):
                chosen = [self.usual(rows)] * 2
            else:
                chosen = [self.world.of(None, *hidden), self.world.of(None, *hidden)]
            for lines, row in zip((one, other), chosen):
                lines += ['r: INSERT INTO %s VALUES %s' % (name, row)] if row else []
        events = ['open b bob'] + [self.world.watched(self.roles) for _ in range(self.events)]
        return None if one == other else (self.definitions + one + events, self.definitions + other + events)

    def beside_others(self):
        """The lines of a script with events of others, and of one without."""
        lines = self.definitions + ['r: GRANT SELECT ON %s TO PUBLIC' % table.name for table in self.world.tables]
        names, sure = [name for name in OTHERS if name not in self.roles], []
        for (name, key), rows in self.hidden_rows().items():
            sure += [(name, key, row) for row, silent in rows if silent]
            lines += ['r: INSERT INTO %s VALUES %s' % (name, self.usual(rows))] if self.world.chance(0.7) else []
        lines += ['open b bob'] + ['open %s %s' % (LETTERS[name], name) for name in names]
        first = len(lines)
        for _ in range(self.events):
            lines += [self.of_another(names, sure) for _ in range(self.world.of(0, 1, 1, 2))]
            lines.append(self.world.watched(self.roles))
        lines = self.leaving_alike(lines, first)
        without = lines[:first] + [line for line in lines[first:] if line.startswith('b: ')]
        return None if lines == without else (lines, without)

    def of_another(self, names, sure):
        """An event of another tenant, or of root on a row that is hidden."""
        if names and (not sure or self.world.chance(0.7)):
            return self.world.other(self.world.of(*names))
        if not sure:
            return 'r: SELECT 1'
        name, key, row = self.world.of(*sure)
        return self.world.of('r: INSERT INTO %s VALUES %s' % (name, row), 'r: DELETE FROM %s WHERE %s' % (name, key))

    def leaving_alike(self, lines, first):
        """The script, from the first event on by which another changes what a role of bob's sees with bob's events alone."""
        looks = ['q: ' + look for role in self.roles
                 for look in ['SET ROLE ' + role] + ['SELECT * FROM ' + table.name for table in self.world.tables]]
        asked = lines[:first] + ['open q bob'] + looks
        for line in lines[first:]:
            asked += [line] + looks
        answers = self.ask(asked)[first + 1:]
        before = answers[:len(looks)]
        for i, line in enumerate(lines[first:]):
            start = len(looks) + i * (len(looks) + 1) + 1
            after = answers[start:start + len(looks)]
            if not line.startswith('b: ') and before != after:
                ends = ['%s: ROLLBACK' % who for who in {past[0] for past in lines[first:first + i]} - {'b', 'r'}]
                return lines[:first + i] + sorted(ends) + [late for late in lines[first + i:] if late.startswith('b: ')]
            before = after
        return lines

    # ---- the answers

    def exception(self, one, other):
        """By which code the answers may differ from here on, or None."""
        if '23505' in one + other and self.policies != OF_KEYS:
            return '23505'
        return '55P03' if self.kind == BESIDE_OTHERS and one == 'refused 55P03' else None

    def compared(self, scripts, answers):
        """What was counted, and the first difference between the answers to both scripts, or None."""
        told = [[(line, answer) for line, answer in zip(lines, answers(lines)) if line.startswith('b: ')] for lines in scripts]
        counts = collections.Counter({'pairs': 1, 'pairs with policies ' + self.policies: 1})
        for (line, one), (_, other) in zip(*told):
            if one != other:
                code = self.exception(one, other)
                counts['parted by ' + (code or 'a difference')] += 1
                return counts, None if code else (line, one, other)
            counts['own answers'] += 1
            counts['refused'] += one.startswith('refused')
            counts['of rows'] += one.startswith('rows ') and not one.startswith('rows 0')
            counts['changes'] += one[:9] in ('ok INSERT', 'ok UPDATE', 'ok DELETE') and not one.endswith(' 0')
        return counts, None


def asked_pair(seed, number, kind, ask=of_program, events=24, answers=None):
    """The two scripts of a number, or None where nothing is hidden, and what their answers come to. What is hidden is found out by `ask`."""
    pair = AskedPair(seed, number, kind, ask, events)
    scripts = pair.scripts()
    return scripts, *(pair.compared(scripts, answers or ask) if scripts else (collections.Counter(), None))


def written(lines, about, path):
    with open(path + '.script', 'w', encoding='utf-8') as file:
        file.write('\n'.join(['# ' + about, *lines]) + '\n')
    with open(path + '.expected', 'w', encoding='utf-8') as file:
        file.write('\n'.join(of_model(lines)) + '\n')


def write(folder, seed='1'):
    """Writes six short pairs of each kind with the model's answers, as they lie in crates/system_tests/data/."""
    about = {ALONE: 'The same definitions, and other rows that are hidden from bob: he is answered as in %s, up to 23505.',
             BESIDE_OTHERS: 'Events of others %s: bob is answered as in %s, up to 23505 and 55P03.'}
    for kind in about:
        made, number = 0, 0
        while made < 6:
            scripts, counts, difference = asked_pair(seed, number, kind, of_model, 14)
            number += 1
            assert not difference, (scripts, difference)
            if counts['own answers'] < 14 or counts['of rows'] < 2 or counts['changes'] < 2 \
                    or 'pairs with policies ' + POLICIES[made % 3] not in counts:
                continue
            made += 1
            names = ['%s_%d_%s' % (NAMES[kind].replace(' ', '_'), made, part) for part in ('one', 'other')]
            for name, twin, lines, has in zip(names, reversed(names), scripts, ('stand between bob\'s', 'are left out')):
                written(lines, about[kind] % ((twin,) if kind == ALONE else (has, twin)), os.path.join(folder, name))
            print('%s: %d answers to bob are the same' % (names[0][:-4], counts['own answers']))
