#!/usr/bin/env bash
# A script of STATEMENTS statements (1,000,000 where it is not given) over a database in memory: INSERTs of one row, in the
# order of the keys, SELECTs, UPDATEs and DELETEs by key; and one of as many, of which every tenth is a GRANT or a REVOKE
# on one of 4 tables to one of 8 roles. Beside them 'sqlite3 :memory:' (Debian's package) running those statements of
# each that it knows too. Prints the seconds of each of ROUNDS rounds (5 where it is not given) and the most memory that
# was in use, in MB, and then the medians with their ratio. Time is processor time, user and system.
#   benchmarks/script.sh [WORK [ROUNDS [STATEMENTS]]]
# GUARDDB names the program that is measured, in place of ./guarddb.
set -euo pipefail
top="$(dirname "$(dirname "$(readlink -f "$0")")")"
work="${1:-$(mktemp -d /var/tmp/guarddb-script.XXXX)}"
rounds="${2:-5}"
statements="${3:-1000000}"
program="${GUARDDB:-$top/guarddb}"
mkdir -p "$work"
cd "$work"
cat > make_scripts.py <<'PROGRAM'
# NAME.script for guarddb, NAME.sql for sqlite3: 'rows' of the statements that both know, 'rights' with grants among them
import random, sys
count = int(sys.argv[1])
TABLES, ROLES = 4, 8

def row_statement(at, tables, held):
    table = random.randrange(tables)
    kind = random.randrange(10)
    if kind < 2 or not held[table]:
        held[table] += 1
        return f"INSERT INTO t{table} VALUES ({held[table]}, {at % 97}, 'row {at}')"
    key = random.randint(1, held[table])
    if kind < 8:
        return f"SELECT x, o FROM t{table} WHERE k = {key}"
    if kind < 9:
        return f"UPDATE t{table} SET x = x + 1 WHERE k = {key}"
    return f"DELETE FROM t{table} WHERE k = {key}"

def right_statement():
    action = random.choice(["SELECT", "INSERT", "UPDATE", "DELETE"])
    table, role = random.randrange(TABLES), random.randrange(ROLES)
    if random.randrange(2):
        return f"GRANT {action} ON t{table} TO u{role}"
    return f"REVOKE {action} ON t{table} FROM u{role}"

def make(name, tables, has_rights):
    random.seed(1)
    held = [0] * tables
    with open(f"{name}.script", "w") as script, open(f"{name}.sql", "w") as sql:
        script.write("open r root\n")
        for table in range(tables):
            made = f"CREATE TABLE t{table} (k BIGINT PRIMARY KEY, x BIGINT, o TEXT)"
            script.write(f"r: {made}\n")
            sql.write(f"{made};\n")
        for role in range(ROLES if has_rights else 0):
            script.write(f"r: CREATE ROLE u{role}\n")
        for at in range(count):
            if has_rights and at % 10 == 0:
                script.write(f"r: {right_statement()}\n")
            else:
                statement = row_statement(at, tables, held)
                script.write(f"r: {statement}\n")
                sql.write(f"{statement};\n")

make("rows", 1, False)
make("rights", TABLES, True)
PROGRAM
cat > measure.py <<'PROGRAM'
# Runs both programs in turn: processor seconds and the most memory of each
import os, statistics, subprocess, sys, tempfile
program, rounds = sys.argv[1], int(sys.argv[2])

def run(words, given):
    with open(given) as script, open(os.devnull, "w") as out:
        child = subprocess.Popen(words, stdin=script, stdout=out)
        _, status, used = os.wait4(child.pid, 0)
    if status:
        sys.exit(f"{words} ended with {status}")
    return used.ru_utime + used.ru_stime, used.ru_maxrss / 1024

for name in ("rows", "rights"):
    times = {"guarddb": [], "sqlite3": []}
    for number in range(1, rounds + 1):
        for who, words, given in (("guarddb", [program], f"{name}.script"), ("sqlite3", ["sqlite3", ":memory:"], f"{name}.sql")):
            seconds, memory = run(words, given)
            times[who].append(seconds)
            print(f"{name} {number} {who} {seconds:.2f} s {memory:.0f} MB", flush=True)
    ours, theirs = (statistics.median(times[who]) for who in ("guarddb", "sqlite3"))
    print(f"{name}: guarddb {ours:.2f} s, sqlite3 {theirs:.2f} s, ratio {ours / theirs:.2f}", flush=True)
PROGRAM
python3 make_scripts.py "$statements"
: | "$program" > made.out
python3 measure.py "$program" "$rounds"
