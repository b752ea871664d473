"""Wrong models, each of which tells a tenant something of what is hidden from it: for tests/tenants.py.

Each is scripts/model.py with one text replaced. It stands under the kind of pairs that is to find it; `families` is of those. What a wrong
model says of hidden rows is never an exception by itself, such as 23505.
"""
import functools
import os
import types

from tenant_worlds import model

# Of each kind what the model does wrong, and the texts of the model, old and new.
WRONG = {
    'one session': ('count(*) of a whole table counts hidden rows', 'rows_answer([[len(kept)]])',
                    'rows_answer([[len(kept) if where or ons or len(sources) > 1 else len(sources[0][1].rows)]])'),
    'one session beside others': ('an UPDATE that reads asks the policies for UPDATE alone',
                                  "second = guard(db, users['current'], name, 'SELECT', 'using') if reads else None\n    for i, row",
                                  'second = None\n    for i, row'),
    'several sessions': ('LIMIT counts hidden rows', 'seen.append([r for r in t.rows if passes(g, r, users)])',
                         "seen.append([r for r in t.rows[:q['limit']] if passes(g, r, users)])"),
    'tables': ('a table without rows needs no privilege', "require(has_privilege(db, users['current'], name, action, c), '42501')",
               "require(not db.tables[name].rows or has_privilege(db, users['current'], name, action, c), '42501')"),
    'columns': ('an UPDATE does not count rows that it leaves as they were',
                "    check_rows(t, list(changed.values()), [changed.get(i, r) for i, r in enumerate(t.rows)])\n    return 'ok UPDATE %d' % len(changed)",
                "    count = sum(t.rows[i] != new for i, new in changed.items())\n"
                "    check_rows(t, list(changed.values()), [changed.get(i, r) for i, r in enumerate(t.rows)])\n    return 'ok UPDATE %d' % count"),
    'tables and columns': ('rows without ORDER BY stand in the order of all their columns',
                           "kept = list(combinations(seen, ons + ([where] if where else []), users))",
                           "kept = sorted(combinations(seen, ons + ([where] if where else []), users), key=repr)"),
    'others': ('a SELECT sees what a block of another has not committed, and no policy',
               "        users = {'current': session.role, 'session': session.login, 'database': db}\n        new = db.copy() if writes else db",
               "        db = self.holder[1] if self.holder and s[0] == 'select' else db\n"
               "        users = {'current': session.role if db is self.seen(number) else 'root', 'session': session.login, 'database': db}\n"
               "        new = db.copy() if writes else db"),
    'others beside tables': ('a table of many rows that may not be read is told as none',
                             "require(has_privilege(db, users['current'], name, action, c), '42501')",
                             "require(has_privilege(db, users['current'], name, action, c), '42501' if len(db.tables[name].rows) < 5 else '42P01')"),
    'own tables': ('who owns a table is exempt from row security on each', "exempt = is_super(db, role) or 'BYPASSRLS' in db.roles[role]",
                   "exempt = is_super(db, role) or 'BYPASSRLS' in db.roles[role] or any(it.owner == role for it in db.tables.values())"),
    'own grants': ('a grant option exempts from row security', "exempt = is_super(db, role) or 'BYPASSRLS' in db.roles[role]",
                   "exempt = is_super(db, role) or 'BYPASSRLS' in db.roles[role] or any(\n"
                   "        d[1] == role and d[2] == name and d[0] is not SYSTEM and may_grant for d, may_grant in db.descriptors.items())"),
    'definitions of root': ('restrictive policies alone let rows pass', "whole = ('lit', False, 'bool')",
                            "whole = ('lit', not permissive and bool(restrictive), 'bool')"),
    'families': ('the last row of a table is seen by all', 'seen.append([r for r in t.rows if passes(g, r, users)])',
                 'seen.append([r for r in t.rows if r is t.rows[-1] or passes(g, r, users)])'),
}


@functools.lru_cache(None)
def wrong_model(kind):
    """The wrong model of a kind."""
    _, old, new = WRONG[kind]
    with open(model.__file__, encoding='utf-8') as file:
        text = file.read()
    assert text.count(old) == 1, (kind, text.count(old))
    made = types.ModuleType('model_' + kind.replace(' ', '_'))
    made.__file__ = os.path.join(os.path.dirname(model.__file__), made.__name__)
    exec(compile(text.replace(old, new), made.__file__, 'exec'), made.__dict__)
    return made


def of_wrong_model(kind):
    """What that model answers to the lines of a script."""
    return lambda lines: wrong_model(kind).run('\n'.join(lines))
