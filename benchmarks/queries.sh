#!/usr/bin/env bash
# Queries over a database in memory, `guarddb run --memory root SCRIPT` beside 'sqlite3 :memory:' (Debian's package) with the
# same statements: SELECT of a row by its key, of 1,000 rows and of 100,000; a SELECT whose condition is on no key; INSERTs of one
# row; UPDATEs by key; a join of two tables of 1,000 rows on the key of the second; ORDER BY; count(*) of 100,000 rows and of
# 1,000,000; and Guarddb alone, SELECT of a row by its key for a role with the policy `owner = current_user` beside the same
# without a policy. Prints the seconds of each of ROUNDS rounds (3 where it is not given) and the most memory that was in use, in
# MB, and then for each work the medians with their ratio. Time is processor time, user and system, less that of a script that
# only fills the tables; so is the memory of count(*).
#   benchmarks/queries.sh [WORK [ROUNDS [SCALE]]]
# GUARDDB names the program that is measured, in place of ./guarddb. SCALE divides the numbers of statements (1 where it is not
# given).
set -euo pipefail
top="$(dirname "$(dirname "$(readlink -f "$0")")")"
work="${1:-$(mktemp -d /var/tmp/guarddb-queries.XXXX)}"
rounds="${2:-3}"
scale="${3:-1}"
program="${GUARDDB:-$top/guarddb}"
mkdir -p "$work"
cd "$work"
cat > make_scripts.py <<'PROGRAM'
# NAME.script for guarddb and NAME.sql for sqlite3 for each fill of tables and each work over one, and works.txt: a line for each
# work with its fill, the number of its statements, and whether sqlite3 runs it
import random, sys
scale = int(sys.argv[1])
ROWS_A_STATEMENT = 100
OWNERS = ("bob", "cid")

def table(name, rows, value):
    made = [f"CREATE TABLE {name} (k BIGINT PRIMARY KEY, x BIGINT, owner TEXT)"]
    for first in range(0, rows, ROWS_A_STATEMENT):
        keys = range(first, min(first + ROWS_A_STATEMENT, rows))
        listed = ", ".join(f"({k}, {value(k)}, '{OWNERS[k % 2]}')" for k in keys)
        made.append(f"INSERT INTO {name} VALUES {listed}")
    return made

def scattered(rows):
    return lambda k: k * 7919 % rows

ROLE = ["CREATE ROLE bob LOGIN", "GRANT SELECT ON t TO bob"]
POLICY = ["ALTER TABLE t ENABLE ROW LEVEL SECURITY", "CREATE POLICY own ON t USING (owner = current_user)"]
# name: statements, who goes on after them
FILLS = {
    "rows-1000": (table("t", 1000, scattered(1000)), "root"),
    "rows-100000": (table("t", 100000, scattered(100000)), "root"),
    "rows-1000000": (table("t", 1000000, scattered(1000000)), "root"),
    "two-tables": (table("a", 1000, scattered(1000)) + table("b", 1000, scattered(1000)), "root"),
    "role": (table("t", 100000, scattered(100000)) + ROLE, "bob"),
    "policy": (table("t", 100000, scattered(100000)) + ROLE + POLICY, "bob"),
}

def by_key(count, rows, form):
    random.seed(1)
    return [form.format(k=random.randrange(rows), n=n) for n in range(max(1, count // scale))]

def appended(count, first):
    return [f"INSERT INTO t VALUES ({k}, {k}, 'bob')" for k in range(first, first + max(1, count // scale))]

def again(count, statement):
    return [statement] * max(1, count // scale)

POINT = "SELECT x, owner FROM t WHERE k = {k}"
# name: fill, statements, whether sqlite3 runs it
WORKS = {
    "point-1000": ("rows-1000", by_key(200000, 1000, POINT), True),
    "point-100000": ("rows-100000", by_key(200000, 100000, POINT), True),
    "scan-100000": ("rows-100000", again(40, "SELECT k FROM t WHERE x < 5"), True),
    "insert": ("rows-1000", appended(200000, 1000), True),
    "update-100000": ("rows-100000", by_key(200000, 100000, "UPDATE t SET x = {n} WHERE k = {k}"), True),
    "join-1000": ("two-tables", again(40, "SELECT a.k, b.x FROM a JOIN b ON b.k = a.x"), True),
    "order-100000": ("rows-100000", again(10, "SELECT k, x FROM t ORDER BY x"), True),
    "count-100000": ("rows-100000", again(40, "SELECT count(*) FROM t"), True),
    "count-1000000": ("rows-1000000", again(4, "SELECT count(*) FROM t"), True),
    "without-policy": ("role", by_key(200000, 100000, POINT), False),
    "with-policy": ("policy", by_key(200000, 100000, POINT), False),
}

def write(name, fill, statements):
    made, who = FILLS[fill]
    with open(f"{name}.script", "w") as script, open(f"{name}.sql", "w") as sql:
        script.write("open root root\n")
        script.writelines(f"root: {it}\n" for it in made)
        if who != "root":
            script.write(f"open {who} {who}\n")
        script.writelines(f"{who}: {it}\n" for it in statements)
        sql.writelines(f"{it};\n" for it in made + statements)

for fill in FILLS:
    write(fill, fill, [])
with open("works.txt", "w") as works:
    for name, (fill, statements, is_known) in WORKS.items():
        write(name, fill, statements)
        works.write(f"{name} {fill} {len(statements)} {int(is_known)}\n")
PROGRAM
cat > measure.py <<'PROGRAM'
# Runs both programs in turn: processor seconds and the most memory of each, after one run of each work in which their rows are
# compared
import os, statistics, subprocess, sys
program, rounds = sys.argv[1], int(sys.argv[2])
works = [line.split() for line in open("works.txt")]
taken = {}

def commands(name, is_known):
    found = {"guarddb": ([program, "run", "--memory", "root", f"{name}.script"], os.devnull)}
    if is_known:
        found["sqlite3"] = (["sqlite3", ":memory:"], f"{name}.sql")
    return found

def rows_of(words, given):
    with open(given) as script:
        lines = subprocess.run(words, stdin=script, stdout=subprocess.PIPE, check=True, text=True).stdout.splitlines()
    faults = [it for it in lines if it.startswith("refused ")]
    if faults:
        sys.exit(f"{words} answered {faults[0]}")
    return sorted(it.replace("\t", "|") for it in lines if not it.startswith(("ok ", "rows ")))

def compare(name, is_known):
    rows = [rows_of(words, given) for words, given in commands(name, is_known).values()]
    if rows[0] != rows[-1]:
        sys.exit(f"{name}: the programs answer other rows")

# A program of its own measures: what this one takes would count as memory of what it starts.
def run(words, given):
    with open(given) as script, open(os.devnull, "w") as out:
        subprocess.run(["/usr/bin/time", "-o", "used.txt", "-f", "%U %S %M", *words], stdin=script, stdout=out, check=True)
    user, system, kilobytes = open("used.txt").read().split()
    return float(user) + float(system), int(kilobytes) / 1024

def measure(name, number, is_known):
    for who, (words, given) in commands(name, is_known).items():
        seconds, memory = run(words, given)
        taken.setdefault((name, who), []).append((seconds, memory))
        print(f"{name} {number} {who} {seconds:.2f} s {memory:.0f} MB", flush=True)

def median(name, who, what):
    return statistics.median(it[what] for it in taken[name, who])

def beyond(name, fill, who, what=0):
    return median(name, who, what) - median(fill, who, what)

fills = {}
for _, fill, _, is_known in works:
    fills[fill] = fills.get(fill, False) or is_known == "1"
for name, _, _, is_known in works:
    compare(name, is_known == "1")
for number in range(1, rounds + 1):
    for fill, is_known in fills.items():
        measure(fill, number, is_known)
    for name, _, _, is_known in works:
        measure(name, number, is_known == "1")
for name, fill, count, is_known in works:
    ours = beyond(name, fill, "guarddb")
    text = f"{name}: {count} statements, guarddb {ours:.2f} s"
    if is_known == "1":
        theirs = beyond(name, fill, "sqlite3")
        text += f", sqlite3 {theirs:.2f} s" + (f", ratio {ours / theirs:.2f}" if theirs > 0 else "")
    if name.startswith("count"):
        rows, more = median(fill, "guarddb", 1), beyond(name, fill, "guarddb", 1)
        text += f"; most memory: {rows:.1f} MB for the rows, {more:.1f} MB more for count(*)"
    print(text, flush=True)
with_policy, without = (beyond(name, fill, "guarddb") for name, fill in (("with-policy", "policy"), ("without-policy", "role")))
print(f"policy: with it {with_policy:.2f} s, without {without:.2f} s, ratio {with_policy / without:.2f}", flush=True)
PROGRAM
python3 make_scripts.py "$scale"
printf '' | "$program" > made.out
python3 measure.py "$program" "$rounds"
