#!/usr/bin/env python3
"""Tries random statements under policies: test_policies.py [STATEMENTS [SEED]]

Scripts of scripts/random_policies.py, of 100 statements each, are run over memory and over a file. In their tables policies bound the
front of a key, or another column of it, or nothing, and some fail. Each answer, refusals too, has to be the one of scripts/model.py,
which reads every row of every table. Prints how many statements there were and how many of them were refused. Where an answer differs
the script is printed up to it, and the status is 1. The program is the one in the environment variable GUARDDB.
"""
import collections
import os
import sys
import tempfile

from asked_pairs import of_model
from program import IS_FAKE, make_database, of_answers, of_program, run
from tenant_worlds import model

import random_policies

STATEMENTS, EACH, SEED = 500, 100, 'policies'
KINDS = ('SELECT', 'INSERT', 'UPDATE', 'DELETE')


def of_file(lines, folder):
    """What the program answers to each event of a script over a file."""
    path, script = os.path.join(folder, 'db'), os.path.join(folder, 'script')
    make_database(path, pages=1024)
    with open(script, 'w', encoding='utf-8') as file:
        file.write('\n'.join(lines) + '\n')
    done = run('run', path, script)
    os.remove(path)
    return of_answers(lines, *done)


def differs(lines, wanted, folder):
    """Where the program first answers otherwise than is wanted, over memory or over a file; None where it does not."""
    for place, answers in (('memory', of_program(lines)), ('a file', of_file(lines, folder))):
        at = next((at for at, pair in enumerate(zip(answers, wanted)) if pair[0] != pair[1]), None)
        if at is not None:
            return '\n'.join([*lines[:at + 1], f'over {place}: {answers[at]}', f'the model: {wanted[at]}'])
    return None


def main(statements=STATEMENTS, seed=SEED):
    if IS_FAKE:
        return 'GUARDDB names no program'
    counts, refused, found = collections.Counter(), collections.Counter(), 0
    memory = '/dev/shm' if os.path.isdir('/dev/shm') else None
    with tempfile.TemporaryDirectory(prefix='guarddb-policies-', dir=memory) as folder:
        for number in range(int(statements) // EACH):
            lines = random_policies.script(f'{seed} {number}', EACH)
            wanted = of_model(lines)
            difference = differs(lines, wanted, folder)
            if difference:
                found += 1
                print(f'# {seed} {number}\n{difference}', flush=True)
            for line, answer in list(zip(lines, wanted))[-EACH:]:
                counts[line.split()[1]] += 1
                refused[answer.split()[1]] += answer.startswith('refused')
    print(', '.join(f'{kind} {counts[kind]}' for kind in KINDS) + f', of {sum(counts.values())} statements; refused',
          ', '.join(f'{code} {count}' for code, count in sorted(refused.items()) if count) + f'; scripts that differ: {found}')
    return 1 if found else 0


if __name__ == '__main__':
    sys.setrecursionlimit(100000)
    sys.exit(main(*sys.argv[1:]))
