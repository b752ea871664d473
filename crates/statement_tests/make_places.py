#!/usr/bin/env python3
"""Makes the broken texts of the part `places` of this crate's program:

    python3 make_places.py

From a fixed seed, 1,000 texts that are refused for their syntax: statements of the scripts of system_tests of which tokens are left
out, doubled, exchanged, or replaced by tokens of other statements, or that end too early, or in which a byte stands that begins no
token. Some have lines, comments and letters past ASCII.
"""
import glob
import os
import random

from places import answer, tokens_of

SCRIPTS = os.path.join(os.path.dirname(os.path.abspath(__file__)), '..', 'system_tests', 'data', '*.script')
SEED = 20160611
TEXTS = 1000
FAULTS = ['@', '#', '!', "'", '"', '""', '1a', '12_', '\\0', '$', '?', '[', ':', "'it''s", '"a" "b']
GAPS = [' '] * 40 + ['  ', '\\n', '\\t', ' -- é\\n', ' -- \'\\n', '--\\r']
WORDS = ['SELECT', 'FROM', 'WHERE', 'a', '"A"', "'é'", '1', '(', ')', ',', ';', '.', '-', '*', '=', 'NOT', 'NULL', 'IS', 'MEMBER', 'OF',
         'ON', 'TO', 'GRANT', 'OPTION', 'FOR', 'WITH', 'CHECK', 'KEY', 'PRIMARY', 'ORDER', 'BY', 'LIMIT', 'JOIN', 'VALUES', 'SET',
         'count', 'AS', 'ALL', 'TABLE', 'ROLE', '9223372036854775808', 'é']


def statements():
    """The statements of the scripts, each once: those that a line can hold."""
    found = set()
    for path in sorted(glob.glob(SCRIPTS)):
        with open(path, encoding='utf-8') as script:
            for line in script.read().splitlines():
                head, colon, text = line.partition(': ')
                if colon and ' ' not in head and len(text) < 200 and not set('{}\\') & set(text):
                    found.add(text)
    return sorted(found)


def words_of(text):
    found, _ = tokens_of(text)
    return [text[start:end] for _, _, start, end in found]


def broken(chance, words, others):
    """The tokens of a statement, with one or two changes."""
    words = list(words)
    for _ in range(chance.choice([1, 1, 1, 2])):
        at = chance.randrange(len(words) + 1)
        match chance.randrange(8):
            case 0 | 1:
                words = words[:at]
            case 2:
                words = words[:at] + words[at + 1:]
            case 3:
                words = words[:at] + words[at:at + 1] + words[at:]
            case 4 if len(words) > 1:
                at = chance.randrange(len(words) - 1)
                words[at], words[at + 1] = words[at + 1], words[at]
            case 5:
                words = words[:at] + [chance.choice(WORDS)] + words[at + chance.randrange(2):]
            case 6:
                words = words[:at] + [chance.choice(FAULTS)] + words[at:]
            case _:
                words = words[:at] + others[chance.randrange(len(others)):]
    return words


def joined(chance, words):
    out = chance.choice(['', '', '', ' ', '-- é\\n'])
    for word in words:
        out += word + chance.choice(GAPS)
    return out.rstrip(' ') if chance.randrange(4) else out.replace(' ', '\\s') if out.endswith(' ') else out


def main():
    chance = random.Random(SEED)
    known = [words for words in map(words_of, statements()) if words]
    made = set()
    while len(made) < TEXTS:
        line = joined(chance, broken(chance, chance.choice(known), chance.choice(known)))
        if line and line not in made and answer(line) != 'none' and not line.startswith(('-- ', 'part ')):
            made.add(line)
            print(line)


if __name__ == '__main__':
    main()
