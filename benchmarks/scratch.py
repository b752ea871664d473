#!/usr/bin/env python3
"""Makes the folder in which it is called a scratch repository for a benchmark's program:

    scratch.py TOP PROGRAM CRATE..

copies these crates of the repository TOP, all that they use, and what was built of them, and writes a crates.txt in which PROGRAM may use
each of them and `anyhow`. A crate that is there already is left.
"""
import os
import shutil
import subprocess
import sys


def main(top, program, *names):
    with open(os.path.join(top, 'crates.txt'), encoding='utf-8') as file:
        lines = [line.strip() for line in file if ':' in line and not line.startswith('#')]
    below = {line.split(':')[0]: line.split(':')[1].split() for line in lines}
    wanted = list(names)
    for name in wanted:
        wanted += [used for used in below[name] if used in below and used not in wanted]
    if not os.path.isdir('.git'):
        subprocess.run(['git', 'init', '-q', '.'], check=True)
    for name in wanted:
        if not os.path.isdir(f'crates/{name}'):
            shutil.copytree(os.path.join(top, 'crates', name), f'crates/{name}')
    os.makedirs(f'crates/{program}/src', exist_ok=True)
    with open('crates.txt', 'w', encoding='utf-8') as file:
        file.writelines(line + '\n' for line in lines if line.split(':')[0] in wanted)
        file.write(f'{program}: {" ".join(name for name in below if name in wanted)} anyhow\n')


main(*sys.argv[1:])
