#!/usr/bin/env bash
# Definitions in a database in memory that has many of them, by scripts on standard input:
#   making    125 to 1,000 tables with four policies each, beside 'sqlite3 :memory:' (Debian's package) making as many tables
#             with four views each: seconds, and how much each doubling takes
#   300       300 tables with four policies each: seconds to make them
#   grants    a GRANT and a REVOKE of one table beside 300 such tables, and beside one table of as many descriptors
#   beside    one GRANT on a table that has 1,250 and 10,000 descriptors
#   roles     a SELECT by key of a table on which 1 and 1,000 roles have SELECT
#   columns   the same by a role that has SELECT on the table, by one that has it on the columns that it reads, and by one of
#             1,000 that have it on these
# Time is processor time, user and system, the least of ROUNDS rounds (5 where it is not given); a statement's time is that of a
# script with many of them less that of the script without, through their number.
#   benchmarks/definitions.sh [WORK [ROUNDS]]
# GUARDDB names the program that is measured, in place of ./guarddb.
set -euo pipefail
top="$(dirname "$(dirname "$(readlink -f "$0")")")"
work="${1:-$(mktemp -d /var/tmp/guarddb-definitions.XXXX)}"
rounds="${2:-5}"
program="${GUARDDB:-$top/guarddb}"
mkdir -p "$work"
cd "$work"
cat > measure.py <<'PROGRAM'
import os, subprocess, sys
program, rounds = sys.argv[1], int(sys.argv[2])
COLUMNS = "k BIGINT PRIMARY KEY, x BIGINT, o TEXT"
POLICIES = 4


def seconds(words, lines):
    """The least processor time of a run of the program over these lines."""
    with open("given", "w") as given:
        given.writelines(line + "\n" for line in lines)
    times = []
    for _ in range(rounds):
        with open("given") as given, open("answers", "w") as answers:
            child = subprocess.Popen(words, stdin=given, stdout=answers)
            _, status, used = os.wait4(child.pid, 0)
        if status:
            sys.exit(f"{words} ended with {status}")
        times.append(used.ru_utime + used.ru_stime)
    with open("answers") as answers:
        refused = [line for line in answers if line.startswith("refused")]
    if refused:
        sys.exit(f"{len(refused)} lines were refused: {refused[0]}")
    return min(times)


def ours(lines):
    return seconds([program], ["open r root", *lines])


def each(before, statements):
    """The time of one of these statements after the lines before them."""
    return (ours(before + statements) - ours(before)) / len(statements)


def tables(count):
    lines = []
    for table in range(count):
        lines.append(f"r: CREATE TABLE t{table} ({COLUMNS})")
        lines.append(f"r: ALTER TABLE t{table} ENABLE ROW LEVEL SECURITY")
        lines += [f"r: CREATE POLICY p{policy} ON t{table} USING (o = current_user AND x > {policy})" for policy in range(POLICIES)]
    return lines


def views(count):
    lines = []
    for table in range(count):
        lines.append(f"CREATE TABLE t{table} ({COLUMNS});")
        lines += [f"CREATE VIEW v{table}_{view} AS SELECT * FROM t{table} WHERE o = 'ann' AND x > {view};" for view in range(POLICIES)]
    return lines


def roles(count):
    return [f"r: CREATE ROLE u{role} LOGIN" for role in range(count)]


def grants(table, count, columns=""):
    return [f"r: GRANT SELECT{columns} ON {table} TO u{role}" for role in range(count)]


def turns(table, pairs):
    return [f"r: {text}" for _ in range(pairs) for text in (f"GRANT SELECT ON {table} TO ann", f"REVOKE SELECT ON {table} FROM ann")]


def tell(text):
    print(text, flush=True)


def making():
    last = {}
    for count in (125, 250, 500, 1000):
        times = {"guarddb": ours(tables(count)), "sqlite3": seconds(["sqlite3", ":memory:"], views(count))}
        grown = "".join(f", {times[who] / last[who]:.2f} times the half by {who}" for who in times if who in last)
        tell(f"making {count} tables: guarddb {times['guarddb']:.3f} s, sqlite3 {times['sqlite3']:.3f} s{grown}")
        last = times
    tell(f"300 tables with 1,200 policies: {ours(tables(300)):.3f} s")


def granting():
    many = each(["r: CREATE ROLE ann", *tables(300)], turns("t0", 1000))
    one = each(["r: CREATE ROLE ann", *tables(1)], turns("t0", 1000))
    tell(f"GRANT or REVOKE: {many * 1e6:.1f} us beside 300 tables with 1,200 policies, {one * 1e6:.1f} us beside one table, ratio {many / one:.2f}")
    costs = {}
    for count in (1250, 10000):
        before = ["r: CREATE ROLE ann", f"r: CREATE TABLE t0 ({COLUMNS})", *roles(count), *grants("t0", count)]
        costs[count] = each(before, turns("t0", 100))
    tell("GRANT or REVOKE on a table with descriptors: " + ", ".join(
        f"{cost * 1e6:.1f} us of {count}, {cost * 1e9 / count:.1f} ns a descriptor" for count, cost in costs.items()) + f", ratio {costs[10000] / costs[1250]:.2f}")


def selecting():
    costs = {}
    for count, columns in ((1, ""), (1000, ""), (1, " (k, x)"), (1000, " (k, x)")):
        before = [f"r: CREATE TABLE t0 ({COLUMNS})", "r: INSERT INTO t0 VALUES (1, 5, 'ann')", *roles(count)]
        before += [*grants("t0", count, columns), f"open u u{count - 1}"]
        costs[count, columns] = each(before, ["u: SELECT x FROM t0 WHERE k = 1"] * 20000)
    table, tables, columns, all_columns = costs.values()
    tell(f"SELECT by key: {table * 1e6:.2f} us under one role, {tables * 1e6:.2f} us under 1,000, ratio {tables / table:.2f}")
    tell(f"SELECT by key by SELECT on its columns: {columns * 1e6:.2f} us under one role, {all_columns * 1e6:.2f} us under 1,000,"
         f" {columns / table:.2f} and {all_columns / table:.2f} times that by SELECT on the table")


making()
granting()
selecting()
PROGRAM
: | "$program" > made.out
python3 measure.py "$program" "$rounds"
