#!/usr/bin/env python3
"""Finds public functions that nothing calls, and names in the pages that the code does not have:

    python3 scripts/callers.py

A line for each finding, with its file and line; the last line is a count, and the status is 1 where there is one:

- a public function of crates/*/src that no file names but where it is defined. Nothing has to call a law, whose contract is a fact:
  a function whose body is empty or only names other laws, or one of LAWS, nor yet what COMING has;
- a function, type, definition or path in backticks, in a page, that is not there;
- a public function that such a page names, while nothing in the program calls it: tests are no callers here.

Names are told by their form, without types. So a method counts as called where any method of its name is. A word of one part in
small letters is looked at only where a page says of which crate it is, as "`grant` of `grant_graph`", or begins with it an item
of what is proved in a crate.
"""
import collections
import glob
import os
import re
import shutil
import sys

import prose
import sources

TOP = os.path.dirname(os.path.dirname(os.path.realpath(__file__)))
# What is no part of the program: what these call may have no other caller.
TESTS = {'statement_tests', 'storage_tests', 'feed_tests', 'system_tests', 'database_examples'}
# Facts that are proved by what a body does, and what there has to be for such a fact, each with what it says.
LAWS = {
    'cli::carry_out_in_memory': 'the commands over a system in memory, an instance of `carry_out`',
    'channels::MemAttend::new': 'there are clients in memory of which all bytes are named',
    'channels::MemChannel::new': 'the same',
    'databases::live': 'what an opening and a run leave, whenever a stop comes',
    'durability_laws::check_device': 'a check of a database is one of the commands that follow each other',
    'durability_laws::copy_device': 'the same of a copy',
    'durability_laws::switch_device': 'the same of a journal that is turned on or off',
    'server::Server::run': 'what `step` does of several events, one after the other',
    'systems::MemListener::new': 'there are clients that the law of systems speaks of',
    'systems::MemListener::of_polled': 'the same, of clients at once',
    'systems::MemReader::new': 'the same',
    'systems::MemSystem::new': 'there is a faithful system',
    'wire::Recorder::new': 'there is a sink that keeps the store\'s number at each answer',
}
# What no command calls yet, each with what it is for.
COMING = {
    'scram::Mock::of_verifier': 'a server that keeps the secret of its mocks in its table of passwords',
    'server::Server::step_read': 'a statement that was described before it runs',
    'postgres_texts::ends_session': "settings that a client of PostgreSQL's protocol sets, and faults that end its session",
    'postgres_texts::SessionSetting::named': 'the same',
    'postgres_texts::SessionSetting::is_told': 'the same',
    'postgres_texts::SessionSetting::value_of': 'the same',
}
# What tests alone call: a device in memory fails and stops when it is asked to.
FOR_TESTS = {'sector_device::MemDevice'}
# Names of others, which pages name: PostgreSQL, SQLite, Linux, systemd, Python and Rust have them.
OTHERS = set('''
    pg_has_role pg_me pg_class pg_hba ctid journal_mode journal_size_limit LimitAS LimitSTACK MemoryMax ProtectSystem
'''.split())

NAME = re.compile(r'(?:[A-Za-z_]\w*::)*[A-Za-z_]\w*(?:\(\))?$')
PATH = re.compile(r'[\w*-]+(?:/[\w.*-]+)+/?$|[\w*]+\.(?:rt|antt|py|sh|md)$')
# Names, and the crate that has them.
OF_CRATE = re.compile(r'((?:`[^`\n]+`(?:,\s+|,?\s+and\s+)?)+),?\s+(?:of|inside)\s+(?:`(\w+)`|\[(\w+)\]\(\.\./(?:crates/)?\w+/README\.md\))')
PROVED = re.compile(r'^- ((?:`[\w:]+`(?:, | and )?)+)', re.M)

Finding = collections.namedtuple('Finding', 'place line what')


def kit_crates():
    """The names of the kit's crates."""
    kit = os.path.dirname(os.path.dirname(os.path.realpath(shutil.which('rt') or '/opt/rattle/bin/rt')))
    place = os.path.join(kit, 'rlibs')
    return {name.removesuffix('.rlib') for name in os.listdir(place)} if os.path.isdir(place) else set()


class Code:
    """What crates/ defines and calls."""

    def __init__(self):
        self.files = [sources.File(path) for path in sources.paths(TOP)]
        self.functions = [function for file in self.files for function in file.functions]
        self.laws = sources.laws_of(self.functions) | {function for function in self.functions if path_of(function) in LAWS | COMING}
        self.crates = {file.crate for file in self.files}
        self.words = collections.defaultdict(set)       # all that is written in each crate and in the scripts, comments apart
        for path in sources.all_paths(TOP):
            part = os.path.relpath(path, TOP).split(os.sep)
            self.words[part[1] if part[0] == 'crates' else ''] |= set(re.findall(r'\w+', sources.without_comments(path)))
        for path in glob.glob(os.path.join(TOP, 'crates', '*', 'data', '*')):
            stem = os.path.basename(path).split('.')[0]
            self.words[path.split(os.sep)[-3]] |= {stem, re.sub(r'\d+', 'N', stem)}
        self.all_words = set.union(self.crates, kit_crates(), *self.words.values())
        self.callers = {function: self.callers_of(function) for function in self.functions if function.is_public}
        self.forget_callers_that_nothing_calls()

    def callers_of(self, function):
        """The crates with a file that names a public function, other than where it is defined."""
        return {file.crate for file in self.files if file.names(function)}

    def forget_callers_that_nothing_calls(self):
        """What only such a function calls has no caller either."""
        files = {file.path: file for file in self.files}
        rest = dict(self.callers)
        while gone := [function for function in rest if not rest[function] and function not in self.laws]:
            names = set()
            for function in gone:
                names |= set(re.findall(r'\w+', files[function.path].body[function.start:function.end]))
                files[function.path].without(function)
                del rest[function]
            for function in rest:
                if function.name in names:
                    rest[function] = self.callers[function] = self.callers_of(function)

    def is_called(self, function):
        """Whether the program calls a function, or need not."""
        return bool(self.callers[function] - TESTS) or function in self.laws or function.crate in TESTS \
            or f'{function.crate}::{function.owner}' in FOR_TESTS


def path_of(function):
    return '::'.join(part for part in (function.crate, function.owner, function.name) if part)


def uncalled(code):
    for function, callers in code.callers.items():
        if not callers and function not in code.laws:
            yield Finding(function.path, function.line, f'nothing names the public function {path_of(function)}')


def in_backticks(lines):
    for number, line in prose.open_lines(lines):
        for found in prose.CODE.finditer(prose.LINK_TARGET.sub('', line)):
            yield number, found[2]


def is_there(path, page):
    """Whether a path is one from the top, from the page's folder, or from some crate's."""
    places = [TOP, os.path.dirname(page), os.path.join(TOP, 'crates')]
    places += glob.glob(os.path.join(TOP, 'crates', '*')) + glob.glob(os.path.join(TOP, 'crates', '*', 'src'))
    return any(glob.glob(os.path.join(place, path)) for place in places) \
        or '/' not in path and glob.glob(os.path.join(TOP, '**', path), recursive=True)


def is_telling(name):
    """Whether a word cannot but be a name of the code: of several words, or CamelCase of two."""
    return '::' in name or '_' in name.strip('_') and not name.isupper() or re.match(r'(?:[A-Z][a-z0-9]+){2,}$', name)


def missing(code, page, lines):
    """Names and paths that are not there."""
    for number, text in in_backticks(lines):
        name = text.removesuffix('()')
        if PATH.match(text):
            if not is_there(text, page) and not text.startswith('/') and re.search(r'\.(?:rt|antt|py|sh|md)$|^crates/|^docs/', text):
                yield Finding(page, number, f'there is no {text}')
        elif NAME.match(text) and is_telling(name) and name not in OTHERS:
            absent = [part for part in name.split('::') if part not in code.all_words]
            if absent:
                yield Finding(page, number, f'nothing has the name {name}')


def carriers(page, text):
    """The names of a page that it says a crate has: name, crate, and the line."""
    for found in OF_CRATE.finditer(text):
        for name in re.findall(r'`([\w:]+)`', found[1]):
            yield name, found[2] or found[3], text[:found.start()].count('\n') + 1
    crate = os.path.basename(os.path.dirname(page))
    if 'crates' in page.split(os.sep):
        start = text.find('## What is proved')
        for found in PROVED.finditer(text, max(start, 0), text.find('\n## ', start + 1) if start >= 0 else 0):
            for name in re.findall(r'`([\w:]+)`', found[1]):
                yield name, crate, text[:found.start()].count('\n') + 1


def wrong_carriers(code, page, text):
    """Names that a crate does not have, and functions of it that nothing in the program calls."""
    for name, crate, line in carriers(page, text):
        if crate not in code.crates:
            continue
        parts = name.split('::')
        if any(part not in code.words[crate] for part in parts):
            if not is_telling(name) or all(part in code.all_words for part in parts):       # else `missing` tells it
                yield Finding(page, line, f'{crate} has no {name}')
            continue
        named = [function for function in code.functions if function.crate == crate and function.name == parts[-1]
                 and (len(parts) == 1 or function.owner in (None, parts[-2])) and function.is_public]
        if named and not any(code.is_called(function) for function in named):
            yield Finding(page, line, f'nothing in the program calls {name}')


def uncalled_names(code, page, lines):
    """Names of functions none of which anything in the program calls, wherever they stand."""
    by_name = collections.defaultdict(list)
    for function in code.functions:
        by_name[function.name].append(not function.is_public or code.is_called(function))
    for number, text in in_backticks(lines):
        name = text.removesuffix('()').split('::')[-1]
        if NAME.match(text) and is_telling(text) and name in by_name and not any(by_name[name]):
            yield Finding(page, number, f'nothing in the program calls {text.removesuffix("()")}')


def pages():
    """The paths of the pages: those at the top, those of docs/ and packaging/, and the README.md of each crate."""
    for folder in ('', 'docs', 'packaging', 'crates/*'):
        yield from sorted(glob.glob(os.path.join(TOP, folder, '*.md')))


def main():
    code = Code()
    found = list(uncalled(code))
    for page in pages():
        with open(page, encoding='utf-8') as file:
            text = file.read()
        lines = text.splitlines()
        found += [*missing(code, page, lines), *wrong_carriers(code, page, text), *uncalled_names(code, page, lines)]
    found = sorted(set(found))
    for finding in found:
        print(f'{os.path.relpath(finding.place, TOP)}:{finding.line}: {finding.what}')
    print(f'{len(found)} names without a caller, or without what they name')
    return 1 if found else 0


if __name__ == '__main__':
    sys.exit(main())
