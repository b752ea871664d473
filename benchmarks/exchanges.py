#!/usr/bin/env python3
"""Instructions of logins that are refused, of a role that has a verifier and of one that has none, counted by valgrind.

    python3 benchmarks/exchanges.py PROGRAM [EXCHANGES]

PROGRAM is that of crates/protocol_tests, which answers a line for each message of a client. Of 2,000 exchanges, where no other number is
given, each has a nonce and a wrong proof of its own. What it takes to read the lines is taken off: lines of as many bytes and the same
texts of verifiers, where nothing was begun. Prints the instructions of an exchange of both roles and their ratio, and says whether both were told the same but for
the salt; the status is 1 where they were not.
"""
import base64
import os
import re
import subprocess
import sys
import tempfile

TOP = os.path.dirname(os.path.dirname(os.path.realpath(__file__)))
sys.path.insert(0, os.path.join(TOP, 'crates', 'protocol_tests'))
sys.dont_write_bytecode = True
import scram_vectors    # noqa: E402


def messages(role, stored, verifier, count):
    """The lines of exchanges whose proofs are wrong."""
    for i in range(count):
        nonce = base64.b64encode(i.to_bytes(18, 'big')).decode()
        yield f'begin {role} {stored} n,,n=,r={nonce}'
        bare, _ = scram_vectors.last(verifier, 'n,,', f'n=,r={nonce}', nonce)
        yield f'finish {stored} {bare},p={base64.b64encode(i.to_bytes(32, "big")).decode()}'


def counted(program, folder, lines):
    """How many instructions the program takes for these lines, and what it prints."""
    with open(os.path.join(folder, 'lines'), 'w', encoding='ascii') as file:
        file.write('\n'.join(lines) + '\n')
    with open(os.path.join(folder, 'lines'), encoding='ascii') as file:
        run = subprocess.run(['valgrind', '--tool=callgrind', '--callgrind-out-file=/dev/null', program], stdin=file, capture_output=True,
                             text=True, check=True)
    return int(re.search(r'refs: +([\d,]+)', run.stderr).group(1).replace(',', '')), run.stdout


def main():
    program = os.path.realpath(sys.argv[1])
    count = int(sys.argv[2]) if len(sys.argv) > 2 else 2000
    bob = scram_vectors.Verifier(b'correct horse', b'0123456789abcdef')
    roles = {'bob': (bob.text(), bob), 'eve': ('-', scram_vectors.mock(b'eve'))}
    costs, told = {}, {}
    with tempfile.TemporaryDirectory() as folder:
        for role, (stored, verifier) in roles.items():
            lines = list(messages(role, stored, verifier, count))
            all_of_it, answers = counted(program, folder, lines)
            reading, _ = counted(program, folder, [f'finish {stored} '.ljust(len(line), 'x') for line in lines])
            costs[role] = (all_of_it - reading) / count
            told[role] = re.sub(r',s=[^,]*,', ',s=,', answers)
            print(f'{role}: {costs[role]:,.0f} instructions, {answers.count("refused")} of {count} refused')
    print(f'with a verifier {costs["bob"] / costs["eve"]:.3f} of without')
    same = told['bob'] == told['eve'] and told['bob'].count('refused') == count
    print('told the same but for the salt' if same else 'TOLD APART')
    sys.exit(not same)


if __name__ == '__main__':
    main()
