#!/usr/bin/env bash
# 'guarddb copy' of a database of many rows beside 'VACUUM INTO' of sqlite3 of as many, in a file system of the folder WORK (a new one in
# /var/tmp where it is not given). Both have one table: a key, a number and a text of 180 bytes. sqlite3 runs with PRAGMA synchronous =
# FULL.
# Prints a line for each of ROUNDS rounds (5 where it is not given), which alternate: the seconds of both by the clock. Then come the
# medians, with their ratio, and the most memory of Guarddb.
#   benchmarks/copies.sh [WORK [ROUNDS [ROWS]]]
# ROWS is 600,000 where it is not given, of some 130 MB. The program is ./guarddb, or what GUARDDB names.
set -euo pipefail
top="$(dirname "$(dirname "$(readlink -f "$0")")")"
work="${1:-$(mktemp -d /var/tmp/guarddb-copies.XXXX)}"
rounds="${2:-5}"
rows="${3:-600000}"
program="$(readlink -f "${GUARDDB:-$top/guarddb}")"
[[ -n ${GUARDDB:-} ]] || : | "$program"    # builds it
mkdir -p "$work"
cd "$work"

python3 - "$program" "$rounds" "$rows" <<'PROGRAM'
import os, resource, sqlite3, statistics, subprocess, sys, time
program, rounds, rows = sys.argv[1], int(sys.argv[2]), int(sys.argv[3])
PAGES = 65536
TEXT = 'o' * 180

def remove(*names):
    for name in names:
        if os.path.exists(name):
            os.remove(name)

remove('db', 'lite')
with open('script', 'w', encoding='ascii') as out:
    out.write('open r root\nr: CREATE TABLE t (k BIGINT PRIMARY KEY, x BIGINT, o TEXT)\n')
    for low in range(0, rows, 20_000):
        out.write('r: BEGIN\n')
        for first in range(low, min(low + 20_000, rows), 100):
            values = ', '.join(f"({k}, {k % 97}, '{TEXT}')" for k in range(first, min(first + 100, rows)))
            out.write(f'r: INSERT INTO t VALUES {values}\n')
        out.write('r: COMMIT\n')
subprocess.run([program, 'format', 'db', '--pages', str(PAGES), '--admin', 'root'], check=True, stdout=subprocess.DEVNULL)
with open('answers', 'wb') as answers:
    subprocess.run([program, 'run', 'db', 'script'], check=True, stdout=answers)
lite = sqlite3.connect('lite', isolation_level=None)
lite.execute('CREATE TABLE t (k INTEGER PRIMARY KEY, x INTEGER, o TEXT)')
lite.execute('BEGIN')
lite.executemany('INSERT INTO t VALUES (?, ?, ?)', ((k, k % 97, TEXT) for k in range(rows)))
lite.execute('COMMIT')
lite.execute('PRAGMA synchronous = FULL')
print(f'sqlite3 {sqlite3.sqlite_version}: {os.stat("lite").st_size / 1e6:.0f} MB')
pages = str(int(rows * 1.06 / 19) + 64)

def timed(work):
    started = time.monotonic()
    work()
    return time.monotonic() - started

ours, theirs = [], []
for number in range(rounds):
    remove('copy', 'lite-copy')
    ours.append(timed(lambda: subprocess.run([program, 'copy', 'db', 'copy', '--pages', pages], check=True, stdout=subprocess.DEVNULL)))
    theirs.append(timed(lambda: lite.execute("VACUUM INTO 'lite-copy'")))
    print(f'{ours[-1]:.3f} {theirs[-1]:.3f}', flush=True)
memory = resource.getrusage(resource.RUSAGE_CHILDREN).ru_maxrss / 1000
a, b = statistics.median(ours), statistics.median(theirs)
print(f'median: guarddb copy {a:.3f} s, VACUUM INTO {b:.3f} s, ratio {a / b:.2f}; at most {memory:.0f} MB in any run of guarddb')
PROGRAM
