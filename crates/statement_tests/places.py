#!/usr/bin/env python3
"""A second program, which answers the lines of the part `places` as this crate's program is to.

tests/second_program.py hands it the lines. It follows the grammar from left to right as scripts/model.py has it and notes the
furthest token that it asks about: each alternative begins with another token, so that is the one at which none goes on.
"""
import os
import re
import sys

sys.path.insert(0, os.path.join(os.path.dirname(os.path.abspath(__file__)), '..', '..', 'scripts'))
import model  # noqa: E402

LETTER = 'A-Za-z_\x80-\U0010ffff'
TOKEN = re.compile(rf'''(?P<blank>[ \t\n\r\f]+|--[^\n\r\0]*)
    |(?P<word>[{LETTER}][{LETTER}0-9$]*)
    |(?P<number>[0-9]+(?![{LETTER}0-9]))
    |(?P<name>"(?:[^"\0]|"")+")
    |(?P<text>'(?:[^'\0]|\'\')*')
    |(?P<sign><>|!=|<=|>=|[(),;.*+\-/%=<>])''', re.VERBOSE)
ESCAPES = {'n': '\n', 'r': '\r', 't': '\t', 'f': '\f', 'v': '\v', '0': '\0', 's': ' '}
FAULT = object()


def written_out(line):
    """The text that a line writes."""
    def plain(part):
        return re.sub(r'\\(.)', lambda found: ESCAPES.get(found[1], found[1]), part, flags=re.DOTALL)
    return ''.join(plain(found[2]) * int(found[1]) if found[1] else plain(found[0])
                   for found in re.finditer(r'\{(\d+)\*([^}]*)\}|[^{]+|\{', line))


def value_of(kind, text):
    """What the model keeps of a token."""
    if kind == 'word':
        return model.fold(text)
    if kind == 'number':
        return int(text)
    if kind in ('name', 'text'):
        return text[1:-1].replace(text[0] * 2, text[0])
    return '<>' if text == '!=' else text


def tokens_of(text):
    """The tokens before the first fault, and its place or None."""
    found, at = [], 0
    while at < len(text):
        match = TOKEN.match(text, at)
        if not match:
            return found, at
        if match.lastgroup != 'blank':
            found.append((match.lastgroup, value_of(match.lastgroup, match[0]), at, match.end()))
        at = match.end()
    return found, None


class Follower(model.Parser):
    """A parser that notes how far it looked, and stops at a number that is out of range or an order."""

    def __init__(self, text):
        self.text, self.i, self.too_great, self.furthest = text, 0, False, 0
        self.ts, self.fault = tokens_of(text)

    def at(self, k=0):
        self.furthest = max(self.furthest, self.i + k)
        if self.fault is not None and self.i + k >= len(self.ts):
            return ('fault', FAULT, 0, 0)
        return super().at(k)

    def simple(self):
        kind, value, _, _ = self.at()
        model.require(kind != 'number' or value <= model.MAX, '42601')
        return super().simple()

    def key(self):
        found = super().key()
        model.require(not found[2], '42601')
        return found

    def select(self):
        found = super().select()
        if found[1]['limit'] is not None and found[1]['limit'] > model.MAX:
            self.furthest = self.i - 1
            raise model.Refused('42601')
        return found

    def place(self):
        """Where no statement goes on, or the end."""
        try:
            self.command()
            self.may_sign(';')
            model.require(self.at()[0] == 'end', '42601')
        except model.Refused:
            if self.furthest < len(self.ts):
                return self.ts[self.furthest][2]
        return len(self.text) if self.fault is None else self.fault


def answer(line):
    text = written_out(line)
    try:
        model.parse(text)
    except model.Refused as refused:
        if refused.code == '42601':
            return str(len(text[:Follower(text).place()].encode()))
    return 'none'


def answers(lines):
    for line in lines:
        yield line if line.startswith('-- ') else answer(line)


if __name__ == '__main__':
    for told in answers(sys.stdin.read().splitlines()):
        print(told)
