#!/usr/bin/env python3
"""Finds where a body makes a refusal for memory by hand:

    python3 scripts/memory.py

No contract says that memory was there, so a body may refuse for memory whenever it likes, and what it has read may decide that. A refusal
is one of `AllocError`, `Memory` and `OutOfMemory`. It may be handed on: in an arm of a match whose pattern has an error or such a
refusal, in a block behind `is_err()`, `let Err(` or `let Ok(`, and in a `From` of one. Each other place where a body of the program has
one as a value stands in memory_left.txt, with what the condition is there; a line of it that is true no more is a finding, too.

A line for each finding; the status is 1 where there is one. This is a hurdle for mistakes and proves nothing: whoever holds an allocator can
ask it for more than there is.
"""
import collections
import os
import re
import sys

import callers
import sources

TOP = os.path.dirname(os.path.dirname(os.path.realpath(__file__)))
LEFT = os.path.join(TOP, 'scripts', 'memory_left.txt')

# A fault, an error, a code or an end that says so. What a conversation wants of its loop, and a cause that is asked for, is none.
VALUE = re.compile(r'\b(?:AllocError|(?!Want|EndCause|RunOver)\w+::(?:Memory|OutOfMemory))\b(?!\s*(?:::|>|\|))')
REFUSAL = re.compile(r'\bErr\b|Memory\b|AllocError')
REFUSED = re.compile(r'is_err\(\)|\blet Err\(|\blet Ok\(')
# What compares with a refusal, or takes it apart.
ASKED = re.compile(r'matches!\(|[!=]= |\blet [^=]*$|\bif let\b|\bimpl\b|\bfn\b|\bfor\b')


def head_of(text, place):
    """The text before the block in which a place stands, from the end of what stands before it, and where that block begins."""
    depth = 0
    for at in range(place - 1, -1, -1):
        depth += {'}': 1, '{': -1}.get(text[at], 0)
        if depth < 0:
            return text[max(text.rfind(letter, 0, at) for letter in ';{}') + 1:at], at
    return '', 0


def is_pattern(text, found):
    """Whether a refusal is a part of a pattern, or is compared with."""
    line_start, line_end = text.rfind('\n', 0, found.start()) + 1, text.find('\n', found.end())
    return '=>' in text[found.end():line_end] or ASKED.search(text[line_start:found.start()]) is not None \
        or text[line_start:line_end].lstrip().startswith('|')


def is_handed_on(text, found):
    """Whether an arm or a block that an error leads to has it as its value."""
    line_start = text.rfind('\n', 0, found.start()) + 1
    before = text[line_start:found.start()]
    if '=>' in before:
        return REFUSAL.search(before[:before.index('=>')]) is not None
    head, opening = head_of(text, found.start())
    if '=>' in head:
        return REFUSAL.search(head[:head.index('=>')].rsplit(',', 1)[-1]) is not None
    if re.search(r'\bfn from\(', head) or REFUSED.search(head):
        return True
    arrow = text.rfind('=>', opening, found.start())        # an arm that goes over several lines
    between = text[arrow:found.start()]
    if arrow >= 0 and ';' not in between and ',' not in between:
        return REFUSAL.search(text[text.rfind('\n', 0, arrow) + 1:arrow]) is not None
    return False


def made_by_hand(file):
    """The functions of a file that have a refusal by hand, each with how many."""
    found = collections.Counter()
    for function in file.functions:
        body = file.body[function.start:function.end]
        opening = body.find('{')
        for value in VALUE.finditer(body, max(opening, 0)):
            if not is_pattern(body, value) and not is_handed_on(body, value):
                found[function.name if function.owner is None else f'{function.owner}::{function.name}'] += 1
    return found


def left():
    """The places that may be, as `FILE FUNCTION`, each with how many refusals it has."""
    with open(LEFT, encoding='utf-8') as file:
        lines = [line.split('#')[0].split() for line in file]
    return {(line[0], line[1]): int(line[2]) for line in lines if line}


def main():
    may_be, found = left(), {}
    for path in sources.paths(TOP):
        file = sources.File(path)
        if file.crate not in callers.TESTS and not file.crate.endswith('_tests'):
            name = os.path.relpath(path, os.path.join(TOP, 'crates'))
            found.update({(name, function): count for function, count in made_by_hand(file).items()})
    for place, count in sorted(found.items()):
        if may_be.get(place) != count:
            print(f'crates/{place[0]}: {place[1]} makes {count} refusals for memory by hand, of which scripts/memory_left.txt has {may_be.get(place, 0)}')
    gone = sorted(may_be.keys() - found.keys())
    for name, function in gone:
        print(f'scripts/memory_left.txt: {name} {function} makes none')
    return 1 if gone or any(may_be.get(place) != count for place, count in found.items()) else 0


if __name__ == '__main__':
    sys.exit(main())
