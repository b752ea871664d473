"""Reads the sources of crates/ as far as scripts ask: functions and names, without comments, texts and contracts.

Nothing here knows types. A file in the layout of `rt fmt` is read by its lines: an item begins its line, a method has four blanks.
"""
import collections
import glob
import os
import re

FUNCTION = re.compile(r'^( *)(pub(?:\([^)]*\))? )?(?:const |unsafe )*fn (\w+)', re.M)
OWNER = re.compile(r'^(?:impl|pub trait|trait|unsafe impl)\b[^\n{]*', re.M)
USE = re.compile(r'^(?:pub(?:\([^)]*\))? )?use ([^;]+);', re.M)
# What only the prover reads: contracts, invariants, and items that begin with `ghost`.
GHOST = re.compile(r'^[ \t]*(?:ensures|requires|invariant|decreases|variant)\b[^{\n]*\{|^[ \t]*ghost\b', re.M)
COMMENT_OR_TEXT = re.compile(r'//[^\n]*|b?"(?:[^"\\]|\\.)*"|b?\'(?:[^\'\\\n]|\\.[^\']*)\'', re.S)

BRACE = re.compile(r'[{}]')
BODY_OR_END = re.compile(r'[{;]')
# What a law may have in its body: it names other laws, or what is thrown away. LAW_CALL finds the former.
LAW_BODY = re.compile(r'\s*(?:(?:(?:\w+::)*\w+\([\w&., ]*\)|let _\w* = [^;{]*);\s*)*$')
LAW_CALL = re.compile(r'(?:^|;)\s*(?:\w+::)*(\w+)\([\w&., ]*\)(?=;)')

Function = collections.namedtuple('Function', 'crate path line name owner is_public laws has_self start end')


def paths(top):
    """The paths of all Rattle sources."""
    return sorted(glob.glob(os.path.join(top, 'crates', '*', 'src', '**', '*.rt'), recursive=True))


def all_paths(top):
    """The paths of all that names may be defined in: sources, definitions, proofs and scripts."""
    endings = ('crates/*/src/**/*.rt', 'crates/*/specs/**/*.antt', 'crates/*/proofs/**/*.antt', '**/*.py', '**/*.sh')
    found = {path for ending in endings for path in glob.glob(os.path.join(top, ending), recursive=True)}
    plain = ('guarddb', 'test', 'lint', 'bench', 'package', 'try_scripts', 'try_hostile', 'try_wrong_bodies')
    found |= {os.path.join(top, name) for name in plain if os.path.exists(os.path.join(top, name))}
    return sorted(path for path in found if '/out/' not in path)


def blank(text, start, end):
    """The text with a part of it as blanks; its lines stay."""
    return text[:start] + re.sub(r'[^\n]', ' ', text[start:end]) + text[end:]


def without_comments(path):
    with open(path, encoding='utf-8') as file:
        text = file.read()
    return re.sub({'.rt': r'//[^\n]*', '.antt': r'--[^\n]*'}.get(os.path.splitext(path)[1], r'(?m)^\s*#[^\n]*'), '', text)


def closing(text, opening):
    """Behind the brace that closes the one at a place."""
    depth = 0
    for found in BRACE.finditer(text, opening):
        depth += 1 if found[0] == '{' else -1
        if depth == 0:
            return found.end()
    return len(text)


def code_of(text):
    """The text of a file with comments, texts, contracts and ghost items as blanks."""
    text = COMMENT_OR_TEXT.sub(lambda found: re.sub(r'[^\n]', ' ', found[0]), text)
    parts, at, found = [], 0, GHOST.search(text)
    while found:
        is_clause = found[0].rstrip().endswith('{')
        end = closing(text, found.end() - 1) if is_clause else end_of_item(text, found.end())
        parts += [text[at:found.start()], re.sub(r'[^\n]', ' ', text[found.start():end])]
        at, found = end, GHOST.search(text, end)
    return ''.join(parts) + text[at:]


def end_of_item(text, start):
    """Behind a ghost item: `ghost use ..;`, `ghost NAME = { .. };`, or a field's `ghost NAME: { .. },`."""
    if text.startswith(' use ', start):
        return text.index(';', start) + 1
    found = re.compile(r'[{;]').search(text, start)
    if found[0] == ';':
        return found.end()
    end = closing(text, found.start())
    return end + (text[end:end + 1] in (';', ','))


def use_paths(tree, before=()):
    """The paths of a `use` tree, each as a tuple of its names and the name that it gets."""
    tree = tree.strip()
    opening = tree.find('{')
    if opening < 0:
        path, _, name = tree.partition(' as ')
        parts = (*before, *path.strip().split('::'))
        if parts[-1] == 'self':
            parts = parts[:-1]
        yield parts, (name or parts[-1]).strip()
        return
    head = tuple(part for part in tree[:opening].strip().split('::') if part)
    depth, piece = 0, ''
    for letter in tree[opening + 1:tree.rindex('}')] + ',':
        depth += {'{': 1, '}': -1}.get(letter, 0)
        if letter == ',' and depth == 0:
            if piece.strip():
                yield from use_paths(piece, (*before, *head))
            piece = ''
        else:
            piece += letter


class File:
    """A source file: its functions, what it imports, and the rest of its code."""

    def __init__(self, path):
        with open(path, encoding='utf-8') as file:
            code = code_of(file.read())
        self.path = path
        self.crate = path.split(os.sep + 'crates' + os.sep)[1].split(os.sep)[0]
        self.module = os.path.splitext(os.path.basename(path))[0]
        self.imports = [each for use in USE.finditer(code) for each in use_paths(use[1])]
        self.body = USE.sub(lambda use: re.sub(r'[^\n]', ' ', use[0]), code)
        self.functions = list(self.read_functions())
        self.words = collections.Counter(re.findall(r'\w+', self.body))

    def read_functions(self):
        owners = [(found.start(), owner_of(found[0])) for found in OWNER.finditer(self.body)]
        for found in FUNCTION.finditer(self.body):
            opening = BODY_OR_END.search(self.body, found.end())
            end = closing(self.body, opening.start()) if opening[0] == '{' else opening.end()
            head, body = self.body[found.end():opening.start()], self.body[opening.start() + 1:end - 1]
            may_be = opening[0] == '{' and '->' not in head and '&mut' not in head and LAW_BODY.match(body)
            laws = tuple(LAW_CALL.findall(body)) if may_be else None
            owner = next((owner for at, owner in reversed(owners) if at < found.start()), None) if found[1] else None
            yield Function(self.crate, self.path, self.body.count('\n', 0, found.start()) + 1, found[3], owner, found[2] == 'pub ',
                           laws, re.search(r'\bself\b', head) is not None, found.start(), end)

    def without(self, function):
        """Forgets the body of a function, which names nothing any more."""
        self.body = blank(self.body, function.start, function.end)
        self.words = collections.Counter(re.findall(r'\w+', self.body))

    def names(self, function):
        """Whether this file names a public function, other than where it is defined."""
        if not self.words[function.name]:
            return False
        text = self.body
        if self.path == function.path:
            text = text[:function.start] + text[function.end:]
        if function.owner is None:
            return self.names_free(function, text)
        if function.has_self:
            return re.search(rf'(?:\.|::)\s*{function.name}\b', text) is not None
        aliases = {name for path, name in self.imports if path[-1] == function.owner} | {function.owner}
        if self.crate == function.crate:
            aliases.add('Self')
        return any(re.search(rf'\b{alias}(?:::<[^;]*?>|<[^;]*?>>?)?::{function.name}\b', text) for alias in aliases)

    def names_free(self, function, text):
        module = os.path.splitext(os.path.basename(function.path))[0]
        if self.path == function.path:
            return re.search(rf'(?<![.\w])(?<!fn ){function.name}\b', text) is not None
        own = self.crate == function.crate
        for path, name in self.imports:
            is_there = path[0] == function.crate or own and path[0] in ('crate', 'super')
            if is_there and path[-1] == function.name and re.search(rf'(?<![.\w])(?<!fn ){name}\b', text):
                return True
            if is_there and path[-1] in (module, function.crate) and re.search(rf'\b{name}::{function.name}\b', text):
                return True
        return re.search(rf'\b(?:{function.crate}|crate|{module})(?:::\w+)*::{function.name}\b', text) is not None


def laws_of(functions):
    """Functions without a body that does anything: their contracts are facts. They answer nothing, and name no more than other laws.
    The field `laws` of any other function is None."""
    may_be = [function for function in functions if function.laws is not None]
    names, before = {function.name for function in may_be}, None
    while names != before:
        before, names = names, {function.name for function in may_be if names.issuperset(function.laws)}
    return {function for function in may_be if function.name in names and names.issuperset(function.laws)}


def owner_of(head):
    """The type or trait of an impl or a trait."""
    head = re.sub(r'<[^<>]*(?:<[^<>]*>[^<>]*)*>', '', head.split(' where ')[0])
    head = head.rsplit(' for ', 1)[-1]
    return re.findall(r'\w+', head.split(':')[0] if 'trait' in head else head)[-1]
