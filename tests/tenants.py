#!/usr/bin/env python3
"""Tries that what a tenant is told says nothing of what is hidden from it: tenants.py [--premises | --wrong] [SEED [PAIRS]]

Pairs of scripts are tried, PAIRS of each kind. In two kinds a single session watches, and what is hidden from it is found out by asking:
asked_pairs.py has them. In the others a tenant has two login roles and three sessions. The databases of both scripts look the same to the
tenant, and its own events are the same in both. They differ in rows that policies hide from each of its roles, in tables that none of
them may read, and in columns that none of them may read, which are no part of the key and which no policy names; others do other
things in them, which leave what the tenant may tell as it was; the tenant makes tables of its own, and grants; root defines things.
Its answers must be the same in both scripts, up to the first that one alone answers 23505, 55P03 where others write, or 54000 to an
UPDATE where columns are hidden. What both refuse alike ends nothing. Each answer is the model's, too.

Before these come the smallest scripts in which something hidden tells, those of telling_scripts.py, each with both of its answers.

Then families of twelve worlds that look the same: the places and codes of these refusals among the answers of one world determine
all of its answers.

A line for each kind says how many pairs and answers there were. Where answers differ both scripts are printed, and the status is 1.
With --premises each of these is left out by itself, and a difference is to be found in so many pairs; else the status is 1:

each login          of two login roles the rows are hidden from one alone
guards of writes    a guard of UPDATE or DELETE may fail on a hidden row
counts              an UPDATE or DELETE that reads nothing may come where policies are of every kind
updates read        a table on which the tenant may only UPDATE is one that it may not read
keys tell           a column of the key may be hidden
policies tell       a column that a policy names may be hidden
23505, 54000, 55P03 the code is no exception

With --wrong each kind is tried over a wrong model of wrong_models.py, which tells something hidden; a difference is to be found, too.

tenants.py --write FOLDER writes twelve short pairs of a single session with the answers of scripts/model.py, and tells how many answers
agreed. Of these are the scripts two_worlds_N_one, two_worlds_N_other, others_N_one and others_N_other in crates/system_tests/data/.
"""
import collections
import concurrent.futures
import sys

from asked_pairs import ALONE, BESIDE_OTHERS, asked_pair, of_model, write
from program import IS_FAKE, of_program
from telling_scripts import TELLING, differences
from tenant_worlds import OTHER_SESSIONS, SESSIONS, TenantWorld, tells_by_count
from wrong_models import WRONG, of_wrong_model

KINDS = {
    'several sessions': {'rows'},
    'tables': {'tables'},
    'columns': {'columns'},
    'tables and columns': {'tables', 'columns'},
    'others': {'others'},
    'others beside tables': {'others', 'tables'},
    'own tables': {'own'},
    'own grants': {'grants', 'columns'},
    'definitions of root': {'definitions', 'columns'},
}
PREMISES = {
    'each login': 'several sessions', 'guards of writes': 'several sessions', 'counts': 'several sessions', 'updates read': 'tables and columns',
    'keys tell': 'columns', 'policies tell': 'columns', '23505': 'several sessions', '54000': 'columns', '55P03': 'others',
}
EXCEPTIONS = ['23505', '55P03', '53300', '54000']
WORLDS = 12         # in a family


class Pair:
    """Two scripts of a kind, as they grow."""

    def __init__(self, seed, number, kind, without=()):
        self.world = TenantWorld('%s %s %s' % (seed, kind, number), KINDS[kind], without)
        self.features, self.without = KINDS[kind], without
        lists, self.differ = self.world.alike(2)
        self.scripts = [self.begun(lines) for lines in lists]
        self.own = []           # where the events of the tenant stand in both scripts
        self.counts = collections.Counter()

    def begun(self, lines):
        """The script of a world with these rows."""
        script = self.world.script.copy()
        for line in lines:
            script.do(line)
        return script

    def is_one(self):
        return bool(self.differ) or 'others' in self.features

    def tell(self, line):
        """An event of the tenant, in both."""
        self.own.append(tuple(len(script.lines) for script in self.scripts))
        for script in self.scripts:
            script.do(line)

    def grow(self):
        """Adds events: of others in each script by itself, of root and of the tenant in both."""
        world = self.world
        for _ in range(world.of(8, 14, 22)):
            if 'others' in self.features:
                for script in self.scripts:
                    for _ in range(world.of(0, 0, 1, 2)):
                        self.add_of_other(script)
            if 'definitions' in self.features and world.chance(0.35):
                self.add_definition()
            self.add_own()

    # ---- events

    def add_own(self):
        world, script = self.world, self.scripts[0]
        name = world.of(*SESSIONS)
        if script.session(name) is None:
            self.tell('open %s %s' % (name, SESSIONS[name]))
        elif world.chance(0.03):
            self.tell('close ' + name)
        else:
            text = world.own_text(script, name)
            if 'counts' in self.without or not any(tells_by_count(one, name, text) for one in self.scripts):
                self.tell('%s: %s' % (name, text))

    def add_of_other(self, script):
        world = self.world
        name = world.of(*OTHER_SESSIONS)
        if script.session(name) is None:
            line = 'open %s %s' % (name, OTHER_SESSIONS[name])
        elif name != 'r' and world.chance(0.05):
            line = 'close ' + name
        else:
            line = '%s: %s' % (name, world.text_of_other(script, name))
        if self.is_out_of_sight(script, line):
            script.do(line)
            self.counts['events of others'] += 1

    def add_definition(self):
        line = self.world.definition_of_root()
        tried = [script.copy() for script in self.scripts]
        for script in tried:
            script.step(line)
        if self.looks_alike(*tried) and tried[0].committed.tables:
            for script in self.scripts:
                script.do(line)
            self.counts['definitions'] += 1

    # ---- what may be told

    def is_out_of_sight(self, script, line):
        """Whether an event of another leaves what the tenant may tell as it was, also where it is not committed yet."""
        tried, sight = script.copy(), self.world.sight
        before = sight.apparent(script.committed)
        tried.step(line)
        if sight.apparent(tried.committed) != before:
            return False
        holder = tried.server.holder
        is_own = holder and any(tried.numbers.get(name) == holder[0] for name in SESSIONS)
        return not holder or is_own or sight.apparent(holder[1]) == before

    def looks_alike(self, one, other):
        sight = self.world.sight
        if sight.apparent(one.committed) != sight.apparent(other.committed):
            return False
        holders = [script.server.holder for script in (one, other)]
        return None in holders or sight.apparent(holders[0][1]) == sight.apparent(holders[1][1])

    # ---- answers

    def exception(self, line, answers):
        """The code by which the answers to a line may part, or None."""
        codes = {'23505'} if self.differ - {'columns'} or 'others' in self.features else set()
        codes |= {'55P03', '53300'} if 'others' in self.features else set()
        codes |= {'54000'} if 'columns' in self.differ and 'UPDATE' in line else set()
        codes -= set(self.without)
        return next((code for code in EXCEPTIONS if code in codes and 'refused ' + code in answers), None)

    def compared(self, wrong=None):
        """The first difference: what was asked, and both answers; None where there is none. The answers are those of the wrong model of
        this kind, or else of the program, which are the model's."""
        told = [(of_wrong_model(wrong) if wrong else of_program)(script.lines) for script in self.scripts]
        for script, answers in zip(self.scripts, [] if wrong else told):
            for line, answer, right in zip(script.lines, answers, script.answers):
                if answer != right:
                    return line, answer, right + ' of the model'
        self.counts['pairs'] += 1
        for i, j in self.own:
            line, one, other = self.scripts[0].lines[i], told[0][i], told[1][j]
            if one != other:
                code = self.exception(line, (one, other))
                self.counts['parted by ' + (code or 'a difference')] += 1
                return None if code else (line, one, other)
            self.counts['own answers'] += 1
            self.counts['of rows'] += one.startswith('rows ') and not one.startswith('rows 0')
            self.counts['both ' + one[8:]] += one in ['refused ' + code for code in EXCEPTIONS]
        return None


def try_pair(seed, number, kind, without, wrong=None):
    """What was counted of a pair, and the difference with the scripts, or None."""
    if kind in (ALONE, BESIDE_OTHERS):
        return try_asked_pair(seed, number, kind, wrong)
    pair = Pair(seed, number, kind, without)
    if not pair.is_one():
        return collections.Counter(), None
    pair.grow()
    difference = pair.compared(wrong)
    return pair.counts, difference and ([script.lines for script in pair.scripts], difference)


def try_asked_pair(seed, number, kind, wrong):
    """The same of a pair of a single session."""
    asked = {'ask': of_model, 'answers': of_wrong_model(wrong)} if wrong else {}
    scripts, counts, difference = asked_pair(seed, number, kind, **asked)
    return counts, difference and (scripts, difference)


# ---- families

def try_family(seed, number, kind=None, without=(), wrong=None):
    """Of worlds that look the same to a tenant: whether the answers of two are the same where the listed refusals are."""
    pair = Pair(seed, number, 'tables and columns', without)
    lists, differ = pair.world.alike(WORLDS)
    if not differ:
        return collections.Counter(), None
    pair.grow()
    own = [pair.scripts[0].lines[i] for i, _ in pair.own]
    first, found = len(pair.world.script.lines), {}
    for lines in lists:
        whole = pair.world.script.lines + lines + own
        answers = (of_wrong_model(wrong) if wrong else of_program)(whole)[first + len(lines):]
        pattern = tuple(answer if answer[8:] in EXCEPTIONS else None for answer in answers)
        other = found.setdefault(pattern, (answers, whole))
        if other[0] != answers:
            place = next(i for i, (a, b) in enumerate(zip(answers, other[0])) if a != b)
            return collections.Counter(), ([other[1], whole], (own[place], other[0][place], answers[place]))
    return collections.Counter({'pairs': 1, 'patterns': len(found), 'families that part': len(found) > 1, 'own answers': WORLDS * len(own)}), None


# ---- all of them

def some(tried, seed, numbers, *how):
    counts = collections.Counter()
    for number in numbers:
        counted, difference = tried(seed, number, *how)
        counts += counted
        if difference:
            return counts, difference
    return counts, None


def try_kind(tried, seed, pairs, kind, without=(), *wrong):
    """Tries pairs until there were so many; what was counted, and the first difference. `wrong` names a wrong model, where it is one's."""
    counts, step, start = collections.Counter(), 10, 0
    with concurrent.futures.ProcessPoolExecutor() as pool:
        while counts['pairs'] < pairs:
            left = pairs - counts['pairs']
            ranges = [range(first, min(first + step, start + left)) for first in range(start, start + left, step)]
            start += left
            for done in [pool.submit(some, tried, seed, numbers, kind, without, *wrong) for numbers in ranges]:
                counted, difference = done.result()
                counts += counted
                if difference:
                    pool.shutdown(cancel_futures=True)
                    return counts, difference
    return counts, None


def tell(kind, counts, difference):
    """Prints what came of a kind; whether there was no difference."""
    order = sorted(counts, key=lambda what: (what != 'pairs', what))
    print('%s: %s' % (kind, ', '.join('%d %s' % (counts[what], what) for what in order)), flush=True)
    if difference:
        scripts, (line, one, other) = difference
        for title, lines in zip(('ONE', 'OTHER'), scripts):
            print('\n'.join(['# ' + title, *lines]))
        print('%s\nis answered\n%s\nand\n%s' % (line, one, other))
    return not difference


def needs(premise, seed, pairs):
    """Whether answers differ somewhere where a premise is left out."""
    counts, difference = try_kind(try_pair, seed, pairs, PREMISES[premise], [premise])
    print('without %s: %s after %d pairs' % (premise, 'a difference' if difference else 'no difference', counts['pairs']), flush=True)
    return bool(difference)


def finds(kind, seed, pairs):
    """Whether answers of the wrong model of a kind differ somewhere."""
    tried = try_family if kind == 'families' else try_pair
    counts, difference = try_kind(tried, seed, pairs, kind, (), kind)
    print('%s, %s: %s after %d pairs' % (kind, WRONG[kind][0], 'a difference' if difference else 'no difference', counts['pairs']), flush=True)
    return bool(difference)


def tell_smallest():
    """Prints what the smallest scripts tell otherwise than it is written; whether there is nothing."""
    found = list(differences(of_program, of_model))
    print('smallest scripts: %d pairs' % len(TELLING), flush=True)
    for what, lines, told, right in found:
        print('\n'.join(['# ' + what, *lines, 'is answered', told, 'and not', right]))
    return not found


def main():
    word = sys.argv[1] if sys.argv[1:] and sys.argv[1].startswith('--') else None
    words = sys.argv[2 if word else 1:]
    if word == '--write':
        write(*words)
        return 0
    seed = words[0] if words else '1'
    pairs = int(words[1]) if words[1:] else 2000 if word else 20
    if word:
        tried = {'--premises': (needs, PREMISES), '--wrong': (finds, WRONG)}[word]
        return 0 if all([tried[0](each, seed, pairs) for each in tried[1]]) else 1
    passed = [tell_smallest()] + [tell(kind, *try_kind(try_pair, seed, pairs, kind)) for kind in [ALONE, BESIDE_OTHERS, *KINDS]]
    passed.append(tell('families', *try_kind(try_family, seed, max(pairs // 10, 1), None)))
    return 0 if all(passed) else 1


if __name__ == '__main__':
    sys.setrecursionlimit(100000)
    if IS_FAKE and sys.argv[1:2] not in (['--write'], ['--wrong']):
        sys.exit('GUARDDB is to name a program that runs scripts')
    sys.exit(main())
