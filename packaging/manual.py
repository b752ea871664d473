"""The manual page guarddb(1), made from the text that `guarddb --help` prints."""
import ast
import os
import re

TOP = os.path.dirname(os.path.dirname(os.path.realpath(__file__)))
TEXTS = os.path.join(TOP, 'crates', 'cli', 'src', 'texts.rt')
FILES = r'''.SH FILES
.TP
.I /var/lib/guarddb/NAME.db
a database that the unit
.B guarddb@NAME
serves, on the socket
.I /run/guarddb/NAME/sock
.TP
.I /etc/guarddb/NAME.conf
how many connections it serves before it is started again, and how long one may be idle
.SH SEE ALSO
.BR guarddb-shell (1);
sql.md, protocol.md and reliability.md in
.I /usr/share/doc/guarddb
'''


def constant(name):
    """A text of texts.rt."""
    with open(TEXTS, encoding='utf-8') as file:
        found = re.search(rf'pub const {name}: &str\s*=\s*("(?:[^"\\]|\\.)*");', file.read(), re.S)
    return ast.literal_eval(found[1].replace('\n', '\\n'))


def version():
    return constant('VERSION_NUMBER')


def escaped(text):
    text = text.replace('\\', r'\e').replace('-', r'\-')
    return re.sub(r"(?m)^([.'])", r'\\&\1', text)


def entries(lines):
    """Entries: a head of two blanks, and what stands below it or, after two blanks more, beside it."""
    head, body = None, []
    for line in lines:
        if re.match(r'  \S', line):
            if head:
                yield head, body
            head, beside = (re.split(r'\s{2,}', line.strip(), maxsplit=1) + [''])[:2]
            body = [beside] if beside else []
        else:
            body.append(line.strip())
    if head:
        yield head, body


def section(title, lines):
    yield f'.SH {title}'
    for head, body in entries(lines):
        yield f'.TP\n.B {escaped(head)}'
        examples = [line for line in body if line.startswith('Example: ')]
        yield escaped(' '.join(line for line in body if line not in examples))
        for example in examples:
            yield '.br\n' + escaped(example)


def page():
    """The page, as roff."""
    first, usage, *rest = constant('HELP').rstrip('\n').split('\n\n')
    parts = {part.split('\n')[0]: part.split('\n')[1:] for part in rest}
    known = {'Commands:': 'COMMANDS', 'Options:': 'OPTIONS', 'Each line of a script is one event, and each event is answered:': 'SCRIPTS'}
    synopsis = '\n'.join(line.removeprefix('Usage:').strip() for line in usage.split('\n'))
    lines = [f'.TH GUARDDB 1 "" "guarddb {version()}" "User Commands"', r'.SH NAME', r'guarddb \- a SQL server with roles, grants and row policies',
             '.SH SYNOPSIS', '.nf', escaped(synopsis), '.fi', '.SH DESCRIPTION', escaped(first) + '.']
    for head, body in parts.items():
        if head in known:
            plain = [line for line in body if not line.startswith(' ')]
            lines += section(known[head], [line for line in body if line.startswith(' ')])
            lines += ['.PP', escaped(' '.join(plain))] if plain else []
        else:
            lines += ['.SH EXIT STATUS' if 'exit status' in head else '.PP', escaped(' '.join([head, *body]))]
    return '\n'.join(lines) + '\n' + FILES
