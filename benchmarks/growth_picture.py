#!/usr/bin/env python3
"""Draws how works grow: reads lines `growth WORK<tab>ROWS<tab>GUARDDB<tab>SQLITE3` in microseconds, and writes an SVG with a small chart for
each work, both axes by powers of ten; the full line is Guarddb, the broken one sqlite3."""
import html
import math
import sys

WIDTH, HEIGHT, LEFT, TOP, ACROSS = 270, 170, 52, 26, 3
LOW_ROWS, HIGH_ROWS, LOW_TIME, HIGH_TIME = 3, 6, -1, 7      # powers of ten


def place(rows, micros):
    """Where a point of a chart lies in it."""
    across = (math.log10(rows) - LOW_ROWS) / (HIGH_ROWS - LOW_ROWS)
    up = (min(max(math.log10(max(micros, 1e-9)), LOW_TIME), HIGH_TIME) - LOW_TIME) / (HIGH_TIME - LOW_TIME)
    return LEFT + across * (WIDTH - LEFT - 34), HEIGHT - 26 - up * (HEIGHT - TOP - 26)


def time_name(power):
    return {-1: '0.1 us', 0: '1 us', 3: '1 ms', 6: '1 s'}.get(power, '')


def chart(name, points):
    """The parts of one chart."""
    yield f'<text x="{LEFT}" y="14" class="name">{html.escape(name)}</text>'
    for power in range(LOW_TIME, HIGH_TIME + 1):
        (x, y), (right, _) = place(10 ** LOW_ROWS, 10.0 ** power), place(10 ** HIGH_ROWS, 1)
        yield f'<line x1="{x:.0f}" y1="{y:.0f}" x2="{right:.0f}" y2="{y:.0f}" class="grid"/>'
        yield f'<text x="{LEFT - 6}" y="{y + 4:.0f}" class="end">{time_name(power)}</text>'
    for power in range(LOW_ROWS, HIGH_ROWS + 1):
        x, _ = place(10 ** power, 1)
        yield f'<text x="{x:.0f}" y="{HEIGHT - 10}" class="middle">{ {3: "1,000", 4: "10,000", 5: "100,000", 6: "1,000,000"}[power]}</text>'
    for at, style in ((1, 'guarddb'), (2, 'sqlite')):
        line = ' '.join('{:.1f},{:.1f}'.format(*place(point[0], point[at])) for point in points)
        yield f'<polyline points="{line}" class="{style}"/>'


def main():
    works = {}
    for line in sys.stdin:
        name, rows, ours, theirs = line.rstrip('\n').removeprefix('growth ').split('\t')
        works.setdefault(name, []).append((int(rows), float(ours), float(theirs)))
    down = -(-len(works) // ACROSS)
    print(f'<svg xmlns="http://www.w3.org/2000/svg" viewBox="0 0 {WIDTH * ACROSS} {HEIGHT * down + 24}" font-family="sans-serif" font-size="10">')
    print('<style>.name{font-weight:bold;font-size:12px}.end{text-anchor:end}.middle{text-anchor:middle}.grid{stroke:#ddd}'
          'polyline{fill:none;stroke-width:2}.guarddb{stroke:#b03020}.sqlite{stroke:#205090;stroke-dasharray:5 3}</style>')
    print('<rect width="100%" height="100%" fill="white"/>')
    for at, (name, points) in enumerate(works.items()):
        print(f'<g transform="translate({at % ACROSS * WIDTH},{at // ACROSS * HEIGHT})">', *chart(name, points), '</g>', sep='\n')
    print(f'<text x="{LEFT}" y="{HEIGHT * down + 14}">time of a statement by rows of the table; full line: Guarddb, broken line: sqlite3</text>')
    print('</svg>')


if __name__ == '__main__':
    main()
