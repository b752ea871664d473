"""What clients/shell.py lists of a database: its tables, roles and privileges, by what `guarddb describe` tells of its file."""
from shell_display import in_columns, shown
from shell_place import REFUSED, Fault


def rows_named(rows, column, name, what):
    """The rows whose column has a name, letter for letter or else in small letters; all where there is no name."""
    if name is None:
        return rows
    found = [row for row in rows if row[column] == name] or [row for row in rows if row[column] == name.lower()]
    if not found:
        raise Fault(REFUSED, f'There is no {what} {name}.')
    return found


def word(cell):
    """A cell of a description as it is listed; PUBLIC is what stands for no role."""
    return {None: '-', True: 'yes', False: 'no'}[cell] if cell is None or isinstance(cell, bool) else str(cell)


def table_of(rows, *columns):
    return in_columns([[word(row[column]) for column in columns] for row in rows], [*columns])


def list_tables(description, name=None):
    """The lines of `\\dt`."""
    rows = rows_named(description['tables'], 'table', name, 'table')
    return table_of(rows, 'table', 'owner', 'row security', 'forced') if rows else ['There are no tables.']


def list_table(description, name):
    """The lines of `\\d NAME`: its columns, its row security, and its policies."""
    table, = rows_named(description['tables'], 'table', name, 'table')
    columns, policies = ([row for row in description[part] if row['table'] == table['table']] for part in ('columns', 'policies'))
    security = 'forced' if table['row security'] and table['forced'] else 'on' if table['row security'] else 'off'
    lines = [f'Table {shown(table["table"])}, of the role {shown(table["owner"])}', *table_of(columns, 'column', 'type', 'not null', 'key'),
             f'Row security: {security}']
    return lines + ['Policies:'] * bool(policies) + [line for row in policies for line in policy_lines(row)]


def policy_lines(row):
    yield f'  {shown(row["policy"])}: {row["kind"]}, FOR {row["command"]} TO {shown(", ".join(row["roles"] or ["PUBLIC"]))}'
    yield from (f'    {clause.upper()} ({shown(row[clause])})' for clause in ('using', 'with check') if row[clause] is not None)


def list_privileges(description, name=None):
    """The lines of `\\dp`."""
    rows_named(description['tables'], 'table', name, 'table')
    rows = [{**row, 'to': row['to'] or 'PUBLIC'} for row in rows_named(description['privileges'], 'table', name, 'privilege on')]
    columns = 'table', 'column', 'privilege', 'to', 'by', 'grant option'
    return table_of(rows, *columns) if rows else ['There are no tables.']


def list_roles(description, name=None):
    """The lines of `\\du`: what each role may, and what it is a member of itself."""
    rows = []
    for role in rows_named(description['roles'], 'role', name, 'role'):
        groups = [row['in'] + ' with admin option' * row['admin'] for row in description['memberships']
                  if row['role'] == role['role'] and row['in'] == row['through']]
        attributes = [attribute for attribute in ('superuser', 'login', 'bypassrls') if role[attribute]]
        rows.append({'role': role['role'], 'attributes': ', '.join(attributes) or '-', 'member of': ', '.join(groups) or '-'})
    return table_of(rows, 'role', 'attributes', 'member of')


def names_of(description):
    """The names of its roles, tables and columns."""
    return {row[column] for part, column in (('roles', 'role'), ('tables', 'table'), ('columns', 'column')) for row in description[part]}
