#!/usr/bin/env python3
"""Plays a script in PostgreSQL 15 and lists where its answers differ from the expected ones, by kind:

    python3 scripts/postgres_judge.py SCRIPT [EXPECTED] [all]

EXPECTED has the answers that Guarddb gives; without it they are those of model.py. With `all` each difference is shown with
its event, else only those of no known kind. The programs of PostgreSQL lie in /usr/lib/postgresql/15/bin, or in the folder
that the environment variable PGBIN names; a server of its own is started in a temporary folder.

A session is a connection, and each `open` is tried as a real login too. A statement runs in a transaction (in a block: behind a
savepoint), so that one that Guarddb refuses can be taken back. After each statement the whole state is compared with the model's:
roles, memberships, tables, grants with their grantors, policies, rows, and the session's two users. Where they differ,
PostgreSQL's state is made the model's, so that one difference does not bring others.

What is written otherwise for PostgreSQL: numbers and users get their types; MEMBER OF, which it has not, is an operator made for
this; keys are deferrable, so that they are compared at a statement's end; a SELECT gets the order of the keys behind its own, where
its role may read them. What is not played: events for the writer lock (55P03), of sessions that are not open, and of sessions whose
roles are gone, which PostgreSQL has no counterpart of.
"""
import collections
import json
import os
import re
import shutil
import socket
import struct
import subprocess
import sys
import tempfile

import model

BIN = os.environ.get('PGBIN', '/usr/lib/postgresql/15/bin')
RIGHTS = {'SELECT': 'r', 'INSERT': 'a', 'UPDATE': 'w', 'DELETE': 'd'}


# ---- a client

class Answer:
    def __init__(self):
        self.rows, self.tag, self.code, self.message, self.warnings = [], '', None, '', []


class Connection:
    """A connection over a socket of the system, by PostgreSQL's protocol, version 3."""

    def __init__(self, folder, user):
        self.socket = socket.socket(socket.AF_UNIX)
        self.socket.connect(os.path.join(folder, '.s.PGSQL.5432'))
        self.input = self.socket.makefile('rb')
        words = ['user', user, 'database', 'postgres', 'client_encoding', 'UTF8']
        start = struct.pack('>I', 196608) + b''.join(word.encode() + b'\0' for word in words) + b'\0'
        self.socket.sendall(struct.pack('>I', len(start) + 4) + start)
        self.login = self.answer()

    def ask(self, text):
        body = text.encode() + b'\0'
        self.socket.sendall(b'Q' + struct.pack('>I', len(body) + 4) + body)
        return self.answer()

    def sure(self, text):
        answer = self.ask(text)
        assert answer.code is None, (text, answer.code, answer.message)
        return answer

    def answer(self):
        answer = Answer()
        while True:
            head = self.input.read(5)
            if len(head) < 5:
                return answer
            kind, body = head[:1], self.input.read(struct.unpack('>I', head[1:])[0] - 4)
            if kind == b'Z':
                return answer
            if kind == b'D':
                answer.rows.append(self.fields(body))
            elif kind == b'C':
                answer.tag = body[:-1].decode()
            elif kind in (b'E', b'N'):
                parts = {part[:1]: part[1:].decode() for part in body.split(b'\0') if part}
                if kind == b'E':
                    answer.code, answer.message = parts[b'C'], parts[b'M']
                elif parts[b'V'] == 'WARNING':
                    answer.warnings.append(parts[b'C'])

    def fields(self, body):
        count, at, out = struct.unpack('>H', body[:2])[0], 2, []
        for _ in range(count):
            length = struct.unpack('>i', body[at:at + 4])[0]
            at += 4
            out.append(None if length < 0 else body[at:at + length].decode())
            at += max(length, 0)
        return out

    def close(self):
        self.input.close()
        self.socket.close()


class Cluster:
    """A server of its own, in a temporary folder."""

    def __enter__(self):
        self.folder = tempfile.mkdtemp(prefix='judge')
        os.chmod(self.folder, 0o777)
        if os.getuid() == 0:
            shutil.chown(self.folder, 'postgres')
        self.system(f'{BIN}/initdb -D {self.folder}/db -U judge -A trust -E UTF8 --locale=C --no-sync')
        options = f'-c listen_addresses= -k {self.folder} -c fsync=off -c lock_timeout=100'
        self.system(f'{BIN}/pg_ctl -D {self.folder}/db -o "{options}" -l {self.folder}/log -w start')
        return self.folder

    def system(self, command):
        words = ['su', 'postgres', '-s', '/bin/sh', '-c', command] if os.getuid() == 0 else ['/bin/sh', '-c', command]
        subprocess.run(words, check=True, stdout=subprocess.DEVNULL)

    def __exit__(self, *_):
        self.system(f'{BIN}/pg_ctl -D {self.folder}/db -m immediate stop')
        shutil.rmtree(self.folder, ignore_errors=True)


# Functions that act as their owner, whoever calls them: `state` tells what the caller's transaction sees, `make` changes it.
FUNCTIONS = r'''
CREATE SCHEMA judge;
GRANT USAGE ON SCHEMA judge TO PUBLIC;
GRANT CREATE ON SCHEMA public TO PUBLIC;
CREATE VIEW judge.owned AS SELECT c.oid, c.relname, c.relowner, c.relacl, c.relrowsecurity, c.relforcerowsecurity
    FROM pg_class c WHERE c.relkind = 'r' AND c.relnamespace = 'public'::regnamespace;
CREATE FUNCTION judge.name_of(oid) RETURNS text STABLE LANGUAGE sql AS
    $$ SELECT CASE WHEN $1 = 0 THEN NULL ELSE coalesce((SELECT rolname::text FROM pg_authid WHERE oid = $1), 'gone') END $$;
CREATE FUNCTION judge.rows_of(what oid) RETURNS json LANGUAGE plpgsql AS
    $$ DECLARE out json; BEGIN EXECUTE format('SELECT coalesce(json_agg(r), ''[]'') FROM %s r', what::regclass) INTO out; RETURN out; END $$;
CREATE FUNCTION judge.state() RETURNS json SECURITY DEFINER LANGUAGE plpgsql AS $$ BEGIN RETURN json_build_object(
    'roles', (SELECT json_agg(json_build_array(rolname, rolsuper, rolcanlogin, rolbypassrls))
        FROM pg_authid WHERE rolname NOT LIKE 'pg\_%' AND rolname <> 'judge'),
    'memberships', (SELECT json_agg(json_build_array(judge.name_of(roleid), judge.name_of(member), admin_option))
        FROM pg_auth_members WHERE member >= 16384),
    'tables', (SELECT json_agg(json_build_array(relname, judge.name_of(relowner), relrowsecurity, relforcerowsecurity)) FROM judge.owned),
    'grants', (SELECT json_agg(json_build_array(judge.name_of(a.grantor), judge.name_of(a.grantee), relname, a.privilege_type, NULL,
            a.is_grantable))
        FROM judge.owned, aclexplode(coalesce(relacl, acldefault('r', relowner))) a),
    'of_columns', (SELECT json_agg(json_build_array(judge.name_of(a.grantor), judge.name_of(a.grantee), relname, a.privilege_type,
            attname, a.is_grantable))
        FROM judge.owned JOIN pg_attribute ON attrelid = owned.oid, aclexplode(attacl) a),
    'policies', (SELECT json_agg(json_build_array(o.relname, polname, polpermissive, polcmd,
            (SELECT array_agg(judge.name_of(r)) FROM unnest(polroles) r))) FROM pg_policy p JOIN judge.owned o ON p.polrelid = o.oid),
    'rows', (SELECT json_object_agg(relname, judge.rows_of(oid)) FROM judge.owned)); END $$;
CREATE FUNCTION judge.is_in(role text) RETURNS boolean STABLE LANGUAGE sql AS $$ SELECT CASE WHEN role IS NOT NULL THEN role IN (
    WITH RECURSIVE reached(id) AS (SELECT oid FROM pg_roles WHERE rolname = current_user
        UNION SELECT roleid FROM pg_auth_members, reached WHERE member = id)
    SELECT rolname::text FROM pg_roles, reached WHERE oid = id) END $$;
CREATE OPERATOR judge.@@@ (FUNCTION = judge.is_in, RIGHTARG = text);
CREATE FUNCTION judge.make(what text) RETURNS void SECURITY DEFINER LANGUAGE plpgsql AS $$ BEGIN EXECUTE what; END $$;
CREATE FUNCTION judge.set_grants(which text, items text[], of_columns json) RETURNS void SECURITY DEFINER LANGUAGE plpgsql AS $$
    DECLARE t oid := (SELECT oid FROM judge.owned WHERE relname = which);
    BEGIN
        UPDATE pg_class SET relacl = items::aclitem[] WHERE oid = t;
        UPDATE pg_attribute SET attacl = (SELECT array_agg(i::aclitem) FROM json_array_elements_text(of_columns -> attname::text) i)
            WHERE attrelid = t AND attnum > 0;
        DELETE FROM pg_shdepend WHERE classid = 'pg_class'::regclass AND objid = t AND deptype = 'a';
        INSERT INTO pg_shdepend SELECT DISTINCT d.oid, 'pg_class'::regclass, t, p.place, 'pg_authid'::regclass, r, 'a'::"char"
            FROM pg_database d, pg_class c,
                LATERAL (SELECT 0, relacl UNION ALL SELECT attnum, attacl FROM pg_attribute WHERE attrelid = t) p (place, acl),
                aclexplode(p.acl) a, LATERAL (VALUES (a.grantor), (a.grantee)) v (r)
            WHERE d.datname = current_database() AND c.oid = t AND r <> 0 AND r <> c.relowner;
    END $$;
'''


# ---- both states, in one form

def state_of_model(db):
    attributes = ('SUPERUSER', 'LOGIN', 'BYPASSRLS')
    return {
        'roles': {name: tuple(a in has for a in attributes) for name, has in db.roles.items()},
        'memberships': dict(db.memberships),
        'tables': {name: (t.owner, t.security, t.forced) for name, t in db.tables.items()},
        'grants': {grant: any(g for d, g in db.descriptors.items() if grant_of(db, d) == grant)
                   for grant in {grant_of(db, d) for d in db.descriptors}},
        'policies': {(name, policy): (p['permissive'], p['for'], frozenset(None if r is model.PUBLIC else r for r in p['to']))
                     for name, t in db.tables.items() for policy, p in t.policies.items()},
        'rows': {name: sorted(json.dumps(row) for row in t.rows) for name, t in db.tables.items()},
    }


def grant_of(db, descriptor):
    """A grant as PostgreSQL has it: what the system gives, the owner gives himself."""
    grantor, grantee, table, action, column = descriptor
    by, to = db.tables[table].owner if grantor is model.SYSTEM else grantor, None if grantee is model.PUBLIC else grantee
    return by, to, table, action, None if column is None else db.tables[table].columns[column][0]


def state_of_postgres(text):
    it = {name: found or [] for name, found in json.loads(text).items()}
    owners = {t[0]: t[1] for t in it['tables']}
    commands = {'*': 'ALL', 'r': 'SELECT', 'a': 'INSERT', 'w': 'UPDATE', 'd': 'DELETE'}
    return {
        'roles': {r[0]: tuple(r[1:]) for r in it['roles']},
        'memberships': {(m[0], m[1]): m[2] for m in it['memberships']},
        'tables': {t[0]: tuple(t[1:]) for t in it['tables']},
        'grants': {tuple(g[:5]): g[5] or g[4] is None and g[0] == g[1] == owners[g[2]]
                   for g in it['grants'] + it['of_columns'] if g[3] in RIGHTS},
        'policies': {(p[0], p[1]): (p[2], commands[p[3]], frozenset(p[4])) for p in it['policies']},
        'rows': {name: sorted(json.dumps(list(row.values())) for row in rows) for name, rows in dict(it['rows']).items()},
    }


def literal(value):
    if value is None:
        return 'NULL'
    return str(value).lower() if isinstance(value, bool) else str(value) if isinstance(value, int) else "'" + value.replace("'", "''") + "'"


def named(name):
    return '"' + name.replace('"', '""') + '"'


def acl_items(db, name, of_column=None):
    """The grants on a table, or on a column of it, as PostgreSQL writes them."""
    owner = db.tables[name].owner
    found = {(owner, owner): 'arwdDxt'} if of_column is None else {}
    for (grantor, grantee, table, action, column), grantable in sorted(db.descriptors.items(), key=str):
        is_own = column is None and (grantor is model.SYSTEM or (grantor, grantee) == (owner, owner))
        if table == name and column == of_column and not is_own:
            pair = (grantor, '' if grantee is model.PUBLIC else grantee)
            found[pair] = found.get(pair, '') + RIGHTS[action] + '*' * grantable
    return [f'{grantee}={rights}/{grantor}' for (grantor, grantee), rights in found.items()]


def all_items(db, name):
    """The arguments of `set_grants` for a table."""
    of_columns = {column[0]: acl_items(db, name, i) for i, column in enumerate(db.tables[name].columns)}
    return f'{literal(name)}, ARRAY[{", ".join(map(literal, acl_items(db, name)))}], {literal(json.dumps(of_columns))}'


def repairs(db, ours, theirs):
    """Statements that make PostgreSQL's state ours; each is carried out by its superuser."""
    for name in theirs['tables'].keys() - ours['tables'].keys():
        yield f'DROP TABLE {named(name)}'
    for role in theirs['roles'].keys() - ours['roles'].keys():
        yield f'DROP OWNED BY {named(role)}'
        yield f'DROP ROLE {named(role)}'
    for role in ours['roles'].keys() - theirs['roles'].keys():
        yield f'CREATE ROLE {named(role)}'
    for role, (is_super, login, bypass) in ours['roles'].items():
        if theirs['roles'].get(role) != (is_super, login, bypass):
            words = [word if holds else 'NO' + word for word, holds in (('SUPERUSER', is_super), ('LOGIN', login), ('BYPASSRLS', bypass))]
            yield f'ALTER ROLE {named(role)} {" ".join(words)}'
    for role, member in theirs['memberships'].keys() - ours['memberships'].keys():
        yield f'REVOKE {named(role)} FROM {named(member)}'
    for (role, member), admin in ours['memberships'].items():
        if theirs['memberships'].get((role, member)) != admin:
            yield f'GRANT {named(role)} TO {named(member)}' if not admin else f'GRANT {named(role)} TO {named(member)} WITH ADMIN OPTION'
            if not admin:
                yield f'REVOKE ADMIN OPTION FOR {named(role)} FROM {named(member)}'
    kinds = {'number': 'BIGINT', 'text': 'TEXT', 'bool': 'BOOLEAN'}
    for name, table in db.tables.items():
        if name not in theirs['tables']:
            columns = [f'{named(c)} {kinds[kind]}' + ' NOT NULL' * not_null for c, kind, not_null in table.columns]
            key = ', '.join(named(table.columns[c][0]) for c in table.key)
            yield f'CREATE TABLE public.{named(name)} ({", ".join(columns)}, PRIMARY KEY ({key}) DEFERRABLE)'
        if theirs['tables'].get(name) != ours['tables'][name]:
            owner, security, forced = ours['tables'][name]
            yield f'ALTER TABLE {named(name)} OWNER TO {named(owner)}'
            yield f'ALTER TABLE {named(name)} {"ENABLE" if security else "DISABLE"} ROW LEVEL SECURITY'
            yield f'ALTER TABLE {named(name)} {"" if forced else "NO "}FORCE ROW LEVEL SECURITY'
        if name not in theirs['tables'] or grants_on(ours, name) != grants_on(theirs, name):
            yield f'SELECT judge.set_grants({all_items(db, name)})'
        if theirs['rows'].get(name, []) != ours['rows'][name]:
            yield f'DELETE FROM {named(name)}'
            if table.rows:
                yield f'INSERT INTO {named(name)} VALUES ' + ', '.join('(' + ', '.join(map(literal, row)) + ')' for row in table.rows)
    for name, policy in theirs['policies'].keys() - ours['policies'].keys():
        if name in ours['tables']:
            yield f'DROP POLICY {named(policy)} ON {named(name)}'
    for name, policy in ours['policies'].keys():
        if theirs['policies'].get((name, policy)) != ours['policies'][name, policy]:
            if (name, policy) in theirs['policies']:
                yield f'DROP POLICY {named(policy)} ON {named(name)}'
            yield policy_text(db.tables[name].policies[policy])


def grants_on(state, name):
    return {grant: option for grant, option in state['grants'].items() if grant[2] == name}


def policy_text(p):
    to = ', '.join('PUBLIC' if r is model.PUBLIC else named(r) for r in p['to'])
    text = f'CREATE POLICY {named(p["name"])} ON {named(p["table"])} AS {"PERMISSIVE" if p["permissive"] else "RESTRICTIVE"} FOR {p["for"]} TO {to}'
    text += f' USING ({typed(p["using"][1])})' if p['using'] else ''
    return text + (f' WITH CHECK ({typed(p["check"][1])})' if p['check'] else '')


# ---- statements as PostgreSQL is given them

def typed(text):
    """An expression with the types of its numbers and users written out."""
    parts = re.split(r"('(?:[^']|'')*')", text)
    for at in range(0, len(parts), 2):
        parts[at] = re.sub(r'(?<![\w.$])(- ?)?(\d+)(?!\w)', number, parts[at])
        parts[at] = re.sub(r'(?i)\b(current_user|session_user)\b', r'\1::text', parts[at])
        parts[at] = re.sub(r'(?i)(?<!from )(?<!join )\bmember\s+of\b(?=\s*[\w(]|\s*$)(?!\s+from\b)', 'OPERATOR(judge.@@@)', parts[at])
    return ''.join(parts)


def number(found):
    before = found.string[:found.start()].rstrip()
    if found[1] and (before[-1:].isalnum() or before[-1:] == ')') and not re.search(r'(?i)\b(select|and|or|not|where|by|on)$', before):
        return f"{found[1]}'{found[2]}'::bigint"
    return f"'{'-' if found[1] else ''}{found[2]}'::bigint"


def written(text, statement, db, role):
    """The text of a statement by a role for PostgreSQL."""
    kind = statement[0] if statement else None
    if kind == 'create table':
        return re.sub(r'PRIMARY KEY( \([^)]*\))?', r'\g<0> DEFERRABLE', text, count=1)
    if kind in ('insert', 'update', 'delete', 'create policy'):
        return typed(text)
    if kind != 'select':
        return text
    q, rest = statement[1], ''
    if q['limit'] is not None:
        text, rest = re.fullmatch(r'(?is)(.*)(\sLIMIT \d+\s*;?)', text).groups()
    text = typed(text)
    if q['list'] != 'count' and q['from'] and all(t[0] in db.tables for t in q['from']):
        keys = [(t, c) for t in q['from'] for c in db.tables[t[0]].key]
        if all(model.has_privilege(db, role, t[0], 'SELECT', c) for t, c in keys):
            text += ', ' if q['order'] else ' ORDER BY '
            text += ', '.join(f'{named(t[1] or t[0])}.{named(db.tables[t[0]].columns[c][0])}' for t, c in keys)
    return text + rest


def answer_text(answer):
    """PostgreSQL's answer in the form of ours."""
    if answer.code:
        return 'refused ' + answer.code
    words = answer.tag.split(' ')
    if words[0] == 'SELECT':
        return model.rows_answer(answer.rows)
    tag = 'BEGIN' if answer.tag == 'START TRANSACTION' else answer.tag.replace('INSERT 0 ', 'INSERT ')
    return f'warn {answer.warnings[0]} {tag}' if answer.warnings else f'ok {tag}'


# ---- kinds of differences, most of which docs/postgres.md explains

ROWS = ('select', 'insert', 'update', 'delete')
NAMES = {'42701', '42702', '42703', '42704', '42710', '42712', '42804', '42P01'}


def kind_of(event, theirs, changed):
    """The name of the first known kind that a difference is of, or None."""
    return next((name for name, holds in kinds(event, theirs, changed) if holds), None)


def kinds(event, theirs, changed):
    """The known kinds, and whether a difference is of each. `changed` names the parts of the state that came out otherwise."""
    kind, mine, other = event.kind, event.expected.split(' ')[-1], theirs.split(' ')[-1]
    yield 'the order in which a failing expression is computed', kind in ROWS and {'22003', '22012'} & {mine, other}
    if kind in ('grant', 'revoke') and named_by(event) in event.db.tables:
        yield from kinds_of_grants(event, mine, other, changed)
    yield 'a REVOKE of a membership that is not there', kind == 'revoke role' and theirs.startswith('warn 01000') and not changed
    yield 'NULL alone has no type', other == '42725'
    yield 'names before privileges', kind.endswith((' role', ' policy')) and other == '42501' and mine in NAMES
    yield 'names in another order', {mine, other} <= NAMES
    yield 'SET ROLE of a role that is not there', (kind, mine, other) == ('set role', '42704', '22023')
    yield 'reading waits for a block that alters', (kind, other) == ('select', '55P03')
    yield 'ORDER BY a column of the answer', (kind, mine) == ('select', '42702') and ' ORDER BY ' in event.line and not theirs.startswith('refused')
    yield 'SELECT of nothing', mine == '42601' and event.line.endswith(': SELECT')
    yield 'a policy TO PUBLIC and others', kind == 'create policy' and theirs.startswith('warn 22023') and not changed
    yield 'each test for the whole statement', kind == 'insert' and {mine, other} <= {'42501', '23502', '23505'}
    yield 'each test for the whole statement', kind == 'grant role' and (mine, other) == ('42501', '0LP01')
    yield 'each test for the whole statement', kind == 'revoke role' and other == '42501' and loses_right(event)
    yield 'a limit', mine == '54000'
    yield 'DELETE with columns', mine == '42601' and re.search(r'\bDELETE \(', event.line)


def loses_right(event):
    """Whether a REVOKE takes, with its first roles, the right to take a later one."""
    _, option, roles, members = event.statement
    db, users = event.db.copy(), {'current': event.users[1], 'session': event.users[0]}
    for role in roles:
        if not model.may_grant_role(db, users['current'], role):
            return role != roles[0]
        model.EXECUTED[event.kind](db, users, (event.kind, option, [role], members))
    return False


def kinds_of_grants(event, mine, other, changed):
    """Those of GRANT and REVOKE of privileges."""
    yield 'the code of a REVOKE that others depend on', (mine, other) == ('2B000', '2BP01')
    yield 'a cycle of grants', event.kind == 'grant' and other == '0LP01'
    yield 'nothing that is named may be granted', mine in ('GRANT', 'REVOKE', '0LP01') and other == '42501'
    yield 'an option on the table, and grants on its columns', leaves_more(event, mine) and has_columns_under_the_table(event)
    if not other[:1].isdigit() and changed in ([], ['grants']):
        yield "the owner's own privileges", event.kind == 'revoke' and changed and but_own(event, event.ours) == but_own(event, event.theirs)
        yield 'a cycle of grants', leaves_more(event, mine) and has_cycle(event)
        yield 'an option that a role has through another', leaves_more(event, mine) and has_option_twice(event)
        yield 'another grantor', any(is_by(event, role) for role in event.db.roles if model.is_in(event.db, event.users[1], role))


def named_by(event):
    """The table that a GRANT or REVOKE names."""
    return event.statement[2 if event.kind == 'grant' else 3]


def holders(event):
    """The roles that hold a grant option on the table."""
    return {d[1] for d, grantable in event.db.descriptors.items() if d[2] == named_by(event) and grantable and d[1] is not model.PUBLIC}


def but_own(event, state):
    """The grants of a state without those of the table's owner to himself."""
    owner = event.db.tables[named_by(event)].owner
    return {grant: option for grant, option in state['grants'].items() if not grant[0] == grant[1] == owner}


def leaves_more(event, mine):
    """Whether PostgreSQL left more grants than Guarddb, or had no others to refuse for."""
    if event.kind != 'revoke':
        return False
    if event.theirs is None:
        return mine == '2B000'
    return but_own(event, event.ours).items() <= but_own(event, event.theirs).items()


def has_cycle(event):
    """Whether grants on the table lead from a role back to it."""
    pairs = {(d[0], d[1]) for d, grantable in event.db.descriptors.items()
             if d[2] == named_by(event) and grantable and d[0] is not model.SYSTEM}
    reached = set(pairs)
    while True:
        more = {(a, d) for a, b in reached for c, d in pairs if b == c} - reached
        if not more:
            return any(a == b for a, b in reached)
        reached |= more


def has_columns_under_the_table(event):
    """Whether a role with an option on the whole table has granted a column of it."""
    items = [(d, grantable) for d, grantable in event.db.descriptors.items() if d[2] == named_by(event)]
    return any(grantable and d[4] is None and d[1] == e[0] and d[3] == e[3] and e[4] is not None for d, grantable in items for e, _ in items)


def has_option_twice(event):
    """Whether a role with a grant option on the table is in another one with such an option."""
    return any(one != other and model.is_in(event.db, one, other) for one in holders(event) for other in holders(event))


def is_by(event, grantor):
    """Whether the statement by this grantor gives PostgreSQL's grants, or is not refused where PostgreSQL's were taken back."""
    name = named_by(event)
    usual, db = model.acting_grantor, event.db.copy()
    options = {d[3:] for d, grantable in db.descriptors.items() if d[1:3] == (grantor, name) and grantable}
    may = lambda action, column: grantor == db.tables[name].owner or options & {(action, None), (action, column)}
    model.acting_grantor = lambda db, role, table, action, column: grantor if may(action, column) else None
    try:
        model.EXECUTED[event.kind](db, {'current': event.users[1], 'session': event.users[0], 'database': db}, event.statement)
    except model.Refused:
        return False
    finally:
        model.acting_grantor = usual
    if event.theirs is None:
        return True
    found, left = but_own(event, state_of_model(db)), but_own(event, event.theirs)
    return found == left or event.kind == 'revoke' and has_option_twice(event) and found.items() <= left.items()


# ---- the play

class Judge:
    def __init__(self, folder, shows_all):
        self.folder, self.shows_all = folder, shows_all
        first = Connection(folder, 'judge')
        first.sure(FUNCTIONS)
        first.sure('CREATE ROLE root SUPERUSER LOGIN')
        first.close()
        self.model, self.numbers = model.Server('root'), {}
        self.connections = {}
        self.users = {}             # by the number of a session: its two users in PostgreSQL, or None where they are to be set
        self.set_in_block = set()   # sessions whose users were set within a block, which its end may take back
        self.counts, self.left_out, self.alike = collections.Counter(), collections.Counter(), 0

    def play(self, line, expected):
        words = line.split(' ', 2)
        if words[0] in ('open', 'close'):
            return self.play_connection(words, expected)
        who, text = line.split(': ', 1)
        number = self.numbers.setdefault(who, len(self.numbers) + 1)
        try:
            statement = model.parse(text)
        except model.Refused:
            statement = None
        event = Event(self.model, number, line, statement, expected)
        session = self.model.sessions.get(number)
        given = written(text, statement, self.model.seen(number), session.role if session else 'root')
        answer = self.model.execute(number, text)
        assert answer == expected, (line, answer, expected)
        event.after = self.model.sessions.get(number)
        if event.reason:
            self.left_out[event.reason] += 1
            if event.was_in_block and not event.was_failed:
                self.connections[number].ask('SELECT 1 / 0')
        elif event.was_failed or event.kind in ('begin', 'commit', 'rollback'):
            self.play_alone(event, given)
        else:
            self.play_statement(event, given)

    def play_connection(self, words, expected):
        number = self.numbers.setdefault(words[1], len(self.numbers) + 1)
        if words[0] == 'close':
            answer = self.model.close(number)
            if number in self.connections:
                self.connections.pop(number).close()
        else:
            answer = self.model.open(number, words[2])
            if answer != 'refused 08002':
                login = Connection(self.folder, words[2])
                login.close()
                event = Event(self.model, number, ' '.join(words), ('open',), expected)
                self.count(event, 'refused ' + login.login.code if login.login.code else 'ok OPEN', login.login.message, [])
            if answer == 'ok OPEN':
                self.connections[number] = Connection(self.folder, 'judge')
                self.users[number] = None
        assert answer == expected, (words, answer, expected)

    def play_alone(self, event, given):
        """What begins or ends a block, or comes in a failed one, and so has no savepoint."""
        connection = self.connections[event.number]
        if event.kind == 'begin' and not event.was_in_block:
            self.set_users(event.number, event.users)
        answer = connection.ask(given)
        changed = []
        if event.kind in ('commit', 'rollback') and not event.after.block:
            self.users.update({number: None for number in self.users if number != event.number or number in self.set_in_block})
            self.set_in_block.discard(event.number)
            connection.sure('BEGIN')
            changed = self.compare_users(event) + (self.align(event) if event.held_lock else [])
            connection.sure('COMMIT')
        self.count(event, answer_text(answer), answer.message, changed)

    def play_statement(self, event, given):
        connection, in_block = self.connections[event.number], event.was_in_block
        self.set_users(event.number, event.users)
        connection.sure('SAVEPOINT judge' if in_block else 'BEGIN')
        answer = connection.ask(given)
        changed = []
        if event.expected.startswith('refused'):
            if not in_block:
                connection.sure('ROLLBACK')
            elif not answer.code:
                connection.ask('SELECT 1 / 0')
        else:
            if answer.code:
                connection.sure('ROLLBACK TO judge' if in_block else 'ROLLBACK')
                connection.sure('SELECT 1' if in_block else 'BEGIN')
            changed = (self.align(event) if event.kind in model.EXECUTED and event.kind != 'select' else []) + self.compare_users(event)
            if in_block and event.kind == 'select':
                connection.sure('ROLLBACK TO judge')        # its locks are not to keep the writer waiting
            connection.sure('RELEASE judge' if in_block else 'COMMIT')
            if event.kind == 'drop role':
                self.users = {number: None for number in self.users}
        self.count(event, answer_text(answer), answer.message, changed)

    def set_users(self, number, wanted):
        if self.users[number] != wanted:
            if self.model.sessions[number].block:
                self.set_in_block.add(number)
            self.connections[number].sure(f'SET SESSION AUTHORIZATION {named(wanted[0])}')
            self.connections[number].sure('SET ROLE ' + ('NONE' if wanted[1] == wanted[0] else named(wanted[1])))
            self.users[number] = wanted

    def compare_users(self, event):
        """Compares the users of a session; where they differ they are set before its next statement."""
        wanted, known = users_of(event.after), self.users[event.number] is not None
        answer = self.connections[event.number].ask('SELECT session_user, current_user')
        if answer.code:
            self.connections[event.number].sure('ROLLBACK')
            self.connections[event.number].sure('BEGIN')
        found = tuple(answer.rows[0]) if answer.rows else None
        self.users[event.number] = wanted if found == wanted else None
        return ['users'] if known and found != wanted else []

    def align(self, event):
        """The names of the parts of the state that differ from the model's. They are made the model's."""
        connection, db = self.connections[event.number], self.model.seen(event.number)
        ours, theirs = state_of_model(db), state_of_postgres(connection.sure('SELECT judge.state()').rows[0][0])
        changed = [part for part in ours if ours[part] != theirs[part]]
        event.ours, event.theirs = ours, theirs
        event.note = ' '.join(f'only {side}: {sorted(one[part].items() - other[part].items(), key=str)}' for part in changed
                              if part != 'rows' for side, one, other in (('Guarddb', ours, theirs), ('PostgreSQL', theirs, ours)))
        for repair in repairs(db, ours, theirs) if changed else []:
            connection.sure('SAVEPOINT repair')
            made = connection.ask(f'SELECT judge.make({literal(repair)})')
            if made.code:
                print(f'not repaired: {repair}: {made.code} {made.message}')
                connection.sure('ROLLBACK TO repair')
        return changed

    def count(self, event, theirs, message, changed):
        if event.expected == theirs and not changed:
            self.alike += 1
            return
        name = kind_of(event, theirs, changed)
        self.counts[name or 'of no known kind'] += 1
        if name is None or self.shows_all:
            short = [text.replace('\n', ' | ')[:150] for text in (event.expected, theirs)]
            print(f'{name or "?"}: {event.line}\n    Guarddb {short[0]}\n    PostgreSQL {short[1]} {message}')
            print(*[f'    {" ".join(changed)} {event.note}'] if changed else [], end='\n' if changed else '')

    def report(self):
        differing = sum(self.counts.values())
        print(f'{self.alike + differing} events played: {self.alike} alike, {differing} differ')
        for name, count in self.counts.most_common():
            print(f'  {count:5} {name}')
        print(f'{sum(self.left_out.values())} not played')
        for name, count in self.left_out.most_common():
            print(f'  {count:5} {name}')


class Event:
    """A statement, and its session before it."""

    def __init__(self, server, number, line, statement, expected):
        session = server.sessions.get(number)
        self.number, self.line, self.expected = number, line, expected
        self.kind = statement[0] if statement else 'text'
        self.users = session and users_of(session)
        self.was_in_block = bool(session and session.block)
        self.was_failed = self.was_in_block and session.block[0] == 'failed'
        self.note, self.ours, self.theirs = '', None, None
        self.db = server.seen(number)
        self.statement = statement
        self.held_lock = bool(server.holder and server.holder[0] == number)
        self.reason = self.why_not_played(server, session)

    def why_not_played(self, server, session):
        if not session:
            return 'a session that is not open'
        if self.expected == 'refused 55P03':
            return 'the writer lock'
        if self.was_failed or self.kind in ('commit', 'rollback'):
            return None
        db = server.seen(self.number)
        if session.login not in db.roles:
            return 'a login role that is gone'
        may_set = model.is_super(db, session.login) or model.is_in(db, session.login, session.role)
        return None if session.role in db.roles and may_set else 'a set role that is gone'


def users_of(session):
    return session.login, session.role


def main(words):
    shows_all = words[-1:] == ['all']
    words = words[:-1] if shows_all else words
    with open(words[0], encoding='utf-8', newline='') as file:
        script = file.read()
    if len(words) > 1:
        with open(words[1], encoding='utf-8', newline='') as file:
            expected = answers_in(file.read())
    else:
        expected = model.run(script)
    lines = [line for line in script.split('\n') if line and not line.startswith('#')]
    assert len(lines) == len(expected), (len(lines), len(expected))
    with Cluster() as folder:
        judge = Judge(folder, shows_all)
        for line, answer in zip(lines, expected):
            judge.play(line, answer)
        judge.report()
    return 1 if judge.counts['of no known kind'] else 0


def answers_in(printed):
    """The answers of a script: `rows n` has n more lines."""
    lines, at, found = printed.split('\n')[:-1], 0, []
    while at < len(lines):
        count = int(lines[at].split(' ')[1]) if lines[at].startswith('rows ') else 0
        found.append('\n'.join(lines[at:at + count + 1]))
        at += count + 1
    return found


if __name__ == '__main__':
    sys.setrecursionlimit(100000)
    sys.exit(main(sys.argv[1:]))
