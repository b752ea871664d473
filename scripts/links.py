#!/usr/bin/env python3
"""Finds links in the pages that lead nowhere: README.md, docs/*.md and all other pages that callers.py reads:

    python3 scripts/links.py

A line for each link to a file that is not there, or to a heading that its page has not, with its file and line. Where a page or a script
names a part of a page in docs/, as `docs/reliability.md, "Copies"`, that part is looked for, too. So is each program that a page runs, as
`python3 tests/test_edges.py`. The last line is a count; the status is 1 where something was found. Addresses of the web are not looked at.
"""
import functools
import glob
import os
import re
import sys

import callers
import prose

TOP = callers.TOP
LINK = re.compile(r'\]\(([^)\s]+)\)')
# A page and the words of one of its headings, or the bold words that begin a paragraph of it.
PART = re.compile(r'\b((?:docs/)?[a-z]+\.md), "([^"\n]+)"')

# A program of this repository in a command of a page.
RUN = re.compile(r'(?:^|`|\bpython3 )((?:\./)?[\w/-]+\.(?:py|sh)|\./[a-z_]+)(?=[\s`]|$)')


def anchor(heading):
    """What a heading is called in a link, as GitHub makes it."""
    text = re.sub(r'\[([^]]*)\]\([^)]*\)', r'\1', heading).strip().lower()
    return re.sub(r'\s', '-', re.sub(r'[^\w\s-]', '', text))


@functools.lru_cache(None)
def headings(path):
    """The headings of a page, and the bold words in it."""
    with open(path, encoding='utf-8') as file:
        text = file.read()
    found = [line.lstrip('#').strip() for _, line in prose.open_lines(text.splitlines()) if prose.HEADING.match(line)]
    return found, {bold.strip('.:') for bold in re.findall(r'\*\*([^*]+)\*\*', text)}


@functools.lru_cache(None)
def anchors(path):
    """The anchors of a page. The second heading of a name gets a number."""
    found = []
    for name in map(anchor, headings(path)[0]):
        found.append(name if name not in found else f'{name}-{found.count(name)}')
    return set(found)


def wrong_link(page, target):
    """What is wrong with a link, or None."""
    path, _, part = target.partition('#')
    if ':' in path:
        return None
    place = os.path.normpath(os.path.join(os.path.dirname(page), path)) if path else page
    if not os.path.exists(place):
        return f'there is no {target}'
    return f'there is no part {target}' if part and part not in anchors(place) else None


def wrong_part(name, part):
    """What is wrong with the name of a page and of a part of it, or None."""
    path = os.path.join(TOP, 'docs', os.path.basename(name))
    if not os.path.exists(path):
        return None
    names, bold = headings(path)
    return None if part.rstrip('.,') in {*names, *bold} else f'{name} has no part "{part}"'


def wrong_links(page):
    """Each link of a page that leads nowhere, with its line."""
    with open(page, encoding='utf-8') as file:
        lines = file.read().splitlines()
    for number, line in prose.open_lines(lines):
        for found in LINK.finditer(prose.CODE.sub('', line)):
            wrong = wrong_link(page, found[1])
            if wrong:
                yield page, number, wrong


def wrong_commands(page):
    """Each program that a page runs and that is not there, with its line."""
    with open(page, encoding='utf-8') as file:
        for number, line in enumerate(file, 1):
            for found in RUN.finditer(line):
                if not callers.is_there(found[1].removeprefix('./'), page):
                    yield page, number, f'there is no {found[1]}'


def wrong_parts(path):
    """Each name of a part of a page that it has not, in a page or a script, with its line."""
    with open(path, encoding='utf-8') as file:
        for number, line in enumerate(file, 1):
            for found in PART.finditer(line):
                wrong = wrong_part(found[1], found[2])
                if wrong:
                    yield path, number, wrong


def main():
    pages = list(callers.pages())
    scripts = [path for folder in ('tests', 'scripts', 'clients', 'packaging') for path in sorted(glob.glob(os.path.join(TOP, folder, '*.py')))]
    found = [wrong for page in pages for wrong in (*wrong_links(page), *wrong_commands(page))] + [wrong for path in pages + scripts for wrong in wrong_parts(path)]
    for path, number, what in found:
        print(f'{os.path.relpath(path, TOP)}:{number}: {what}')
    print(f'{len(found)} links that lead nowhere')
    return 1 if found else 0


if __name__ == '__main__':
    sys.exit(main())
