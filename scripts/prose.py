#!/usr/bin/env python3
"""Lists what makes the documents hard to read: README.md, docs/*.md and crates/*/README.md, or the files given:

    python3 scripts/prose.py [FILE..]

A line for each, with its file and line:

- a sentence of over 35 words. A paragraph, an item of a list, a heading and a cell of a table each end one. Words in backticks
  count, the target of a link does not;
- a line of over 300 columns outside tables;
- the first command of the README.md at the top, where over 25 lines come before it;
- a README.md of a crate that has over 40 lines, and a crate without one;
- a name of the tables RETIRED and MERGED below, which the code has no more.

Where no file is given, the names and comments of crates/*/{src,specs} are looked at, too, for the words of RETIRED and of
RETIRED_IN_CODE: each as a part of a name between underscores or humps, but in the crates that may have it.

Nothing within ``` is looked at. The last line is a count; the status is 1 where something was listed.
"""
import collections
import functools
import glob
import os
import re
import sys

TOP = os.path.dirname(os.path.dirname(os.path.realpath(__file__)))
WORDS = 35
COLUMNS = 300
LINES = 25
CRATE_LINES = 40        # of a README.md in crates/

# Names that are gone from the code, each with the one to use.
RETIRED = {
    'seen_statements': 'sessions', 'execute_seen': 'execute_under', 'decisions::': 'sessions',
    'rowoutcome': 'effect', 'pagebuffer': 'dirty pages', 'lower_root': 'collapse_root', 'settle': 'bind',
    'tightness': 'precedence', 'draft': 'scratch', 'memory_trials': 'memory_tests', r'(?:image|array|store)_trials': 'storage_tests',
    r'grammar_tests|row_trials': 'statement_tests', r'(?:catalogue|definition)_trials|definition_tests': 'statement_tests',
    'feed_trials': 'feed_tests',
    # words of the code that were renamed
    r'deeds?|deed_for': 'decision', r'deciders?': 'event handler', 'write slot': 'writer lock', 'askers?': 'requester',
    r'strays|stray (?:records?|rows?)|straytest|strayrowtest|no_stray\w*': 'orphan',
    r'quiet (?:conditions?|guards?|expressions?)|are_quiet|is_guard_quiet': 'infallible',
    r'(?:first|second) spellings?|spellings? of (?:the )?records': 'record format',
    'foundrows': 'collected rows', 'listedrows': 'unsorted rows', 'keyedrows': 'sorted rows', 'keptrows': 'top rows',
    'besidedevice|write_beside': 'write_protected', 'copywatch|watch_copy': 'CopyProgress', 'regranted|regranting': 'descriptor edit',
    'agreefor': 'SameVisibleRows', 'lookalike': 'SameApparentRows', 'allalike': 'SameApparentRowsForPairs',
    'seealike': 'MachinesAlikeForStatement', 'isalikefor': 'MachinesAlikeForSession',
    r'circles?': 'cycle', r'spoils?': 'reject', 'respelled|respelling|respells|spelled_in_second': 'migrated',
    r'(?:held|end|holds|commit)_slot|is_slot_of': 'lock',
}

# The same where pages are not looked at, since they have these words in other senses.
RETIRED_IN_CODE = {
    r'slots?': 'writer lock', r'of_spelling|is_first_spelling|holds_first_spelling': 'record format',
    'sort_value': 'sort_key_expression', r'quiet|strays?': 'infallible, or orphan',
}

# The crates that may have such a word in their code: what it means there is another thing.
MAY_HAVE = {
    r'slots?': {'page_cache', 'cow_pages', 'storage_tests', 'system_tests'},  # of a cache; the name of a file in data/
    'sort_value': {'gathering'},                                        # a row's value of a sort key
    'settle': {'page_tree'},                                            # a change that is made
    r'quiet|strays?': {'polled_clients', 'storage_tests'},              # where nothing happens, and none fails
    r'(?:held|end|holds|commit)_slot|is_slot_of': {'page_cache'},
}

# Crates that are part of another one; some of the names are files in it, and plain words where no backticks are around them.
MERGED = {
    'journal_chain|journal_records|sector_journal': 'journal', 'device_store|journal_switches': 'journal_store',
    r'(?:role|table)_statements(?!\.rt)|(?:policy|privilege)_statements': 'schema_statements',
    'session_server|file_commands': 'cli', 'device_databases|`lives`': 'databases', '`opening`|`migration`': 'recovery',
    'catalogue_records|catalogue_checks|stored_rows': 'catalogue_loading',
    r'(?:device|database)_copies(?!\.rt)|`copying`': 'copies', 'script_runs|`connections`': 'wire',
}

CODE = re.compile(r'(`+)(.+?)\1', re.S)
LINK_TARGET = re.compile(r'(?<=\])\([^)]*\)')
LINK = re.compile(r'\[([^]]*)\]\([^)]*\)')
# After a full stop, or what closes behind one, comes a new sentence; `..` stands for more of the same, and ends none.
END = re.compile(r'(?:(?<!\.)\.|[?!])[)"\'*]*\s+')
FENCE = re.compile(r'\s*```')
ITEM = re.compile(r'^\s*(?:[-*+]|\d+\.)\s+')
HEADING = re.compile(r'^#+\s+')

NAME, COMMENT = re.compile(r'\w+'), re.compile(r'//|--')
# Where a part of a name begins and ends: at an underscore, too, and between humps, which are parted first.
PART_BEGINS, PART_ENDS, HUMP = r'(?<![^\W_])', r'(?![^\W_])', re.compile(r'(?<=[a-z0-9])(?=[A-Z])')

Text = collections.namedtuple('Text', 'line words')       # a text with the number of its first line
Finding = collections.namedtuple('Finding', 'kind line what')


def cells(line):
    """The cells of a table's row; a bar in backticks, or after a backslash, parts none."""
    bare = CODE.sub(lambda code: code[0].replace('|', '\0'), line.replace('\\|', '\0')).strip().strip('|')
    return [cell.replace('\0', '|').strip() for cell in bare.split('|')]


def open_lines(lines):
    """The lines outside ``` blocks, with their numbers from 1; such a block counts as an empty line."""
    fenced = False
    for number, line in enumerate(lines, 1):
        if FENCE.match(line):
            fenced = not fenced
            yield number, ''
        elif not fenced:
            yield number, line


def texts(lines):
    """The texts of a page whose ends are ends of sentences."""
    text = None
    for number, line in open_lines(lines):
        in_table = line.startswith('|')
        alone = in_table or HEADING.match(line) is not None
        if text and (alone or not line.strip() or ITEM.match(line)):
            yield text
            text = None
        if alone:
            yield from (Text(number, cell) for cell in (cells(line) if in_table else [HEADING.sub('', line)]))
        elif text:
            text = Text(text.line, f'{text.words}\n{line}')
        elif line.strip():
            text = Text(number, ITEM.sub('', line))
    if text:
        yield text


def sentences(text):
    """The sentences of a text, each with the number of the line where it begins."""
    masked = CODE.sub(lambda code: re.sub(r'[.?!]', ',', code[0]), text.words)
    at = 0
    for end in [*(found.end() for found in END.finditer(masked)), len(masked)]:
        if masked[at:end].strip():
            yield Text(text.line + masked[:at].count('\n'), text.words[at:end])
        at = end


def count_words(sentence):
    return sum(re.search(r'\w', word) is not None for word in LINK.sub(r'\1', sentence).split())


def long_sentences(lines):
    for text in texts(lines):
        for line, sentence in sentences(text):
            if count_words(sentence) > WORDS:
                beginning = ' '.join(sentence.split()[:8])
                yield Finding('long sentence', line, f'{count_words(sentence)} words: {beginning} ..')


def long_lines(lines):
    for number, line in open_lines(lines):
        if len(line) > COLUMNS and not line.startswith('|'):
            yield Finding('long line', number, f'{len(line)} columns')


def retired_words(lines):
    for number, line in open_lines(lines):
        text = LINK_TARGET.sub('', line)
        for word, better in (RETIRED | MERGED).items():
            for found in re.finditer(rf'(?<!\w)(?:{word})(?!\w)', text, re.IGNORECASE):
                yield Finding('retired word', number, f'{found[0]}: say {better}')


def is_phrase(word):
    return ' ' in word


@functools.cache
def any_of(words):
    """A pattern that finds each of these words, as a part of a name, and a group's number that tells which."""
    return re.compile('|'.join(rf'(?P<w{at}>{PART_BEGINS}(?:{word}){PART_ENDS})' for at, word in enumerate(words)), re.IGNORECASE)


@functools.cache
def words_of(crate):
    """The words that a crate may not have, each with the one to use."""
    return {word: better for word, better in (RETIRED | RETIRED_IN_CODE).items() if crate not in MAY_HAVE.get(word, ())}


@functools.cache
def retired_parts(text, crate, of_phrases):
    """The retired words in a name or in a line, each with the one to use."""
    words = {word: better for word, better in words_of(crate).items() if of_phrases == is_phrase(word)}
    found = (match for form in dict.fromkeys((text, HUMP.sub('_', text))) for match in any_of(tuple(words)).finditer(form))
    return [(match[0], list(words.values())[int(match.lastgroup[1:])]) for match in found]


def retired_names(path, lines):
    """The retired words in the names and comments of a source."""
    crate = os.path.relpath(path, TOP).split(os.sep)[1]
    for number, line in enumerate(lines, 1):
        texts = [(name, False) for name in NAME.findall(line)] + [(line, True)] * (COMMENT.search(line) is not None)
        for text, of_phrases in texts:
            for word, better in retired_parts(text, crate, of_phrases):
                yield Finding('retired word', number, f'{word}: say {better}')


def late_command(lines):
    """The first command, which the first ``` block has, where much comes before it."""
    first = next((number for number, line in enumerate(lines, 1) if FENCE.match(line)), len(lines) + 1)
    if first - 1 > LINES:
        yield Finding('late command', first, f'{first - 1} lines before the first command')


def long_page(lines):
    if len(lines) > CRATE_LINES:
        yield Finding('long page', CRATE_LINES + 1, f'{len(lines)} lines')


def findings(path):
    """What is found in a page, or in a source of crates/."""
    try:
        with open(path, encoding='utf-8') as file:
            lines = file.read().splitlines()
    except FileNotFoundError:
        return [Finding('missing page', 1, 'there is no such file')]
    if not path.endswith('.md'):
        return list(retired_names(path, lines))
    found = [*long_sentences(lines), *long_lines(lines), *retired_words(lines)]
    folder, name = os.path.split(os.path.realpath(path))
    if name == 'README.md' and folder == TOP:
        found += late_command(lines)
    if name == 'README.md' and os.path.dirname(folder) == os.path.join(TOP, 'crates'):
        found += long_page(lines)
    return sorted(found, key=lambda finding: finding.line)


def pages():
    """The pages that are looked at where none are given. Each crate of crates.txt is to have one."""
    with open(os.path.join(TOP, 'crates.txt'), encoding='utf-8') as file:
        crates = [line.split(':')[0].split()[0] for line in file if ':' in line and not line.startswith('#')]
    yield os.path.join(TOP, 'README.md')
    yield from sorted(glob.glob(os.path.join(TOP, 'docs', '*.md')))
    yield from (os.path.join(TOP, 'crates', crate, 'README.md') for crate in sorted(crates))


def code():
    """The sources and definitions whose names and comments are looked at."""
    for part, ending in (('src', 'rt'), ('specs', 'antt')):
        yield from sorted(glob.glob(os.path.join(TOP, 'crates', '*', part, '**', f'*.{ending}'), recursive=True))


def main(paths):
    counts = collections.Counter({'long sentence': 0, 'long line': 0, 'late command': 0, 'long page': 0, 'missing page': 0,
                                  'retired word': 0})
    for path in paths or [*pages(), *code()]:
        for finding in findings(path):
            print(f'{os.path.relpath(path)}:{finding.line}: {finding.kind}, {finding.what}')
            counts[finding.kind] += 1
    print(', '.join(f'{number} {kind}{"s" * (number != 1)}' for kind, number in counts.items()))
    return int(counts.total() > 0)


if __name__ == '__main__':
    sys.exit(main(sys.argv[1:]))
