#!/usr/bin/env bash
# Parsing 100,000 statements of 60 bytes on average, of each kind that sqlite3 knows too, in turn, beside 'sqlite3'
# (Debian's package) doing EXPLAIN of the same, and beside its EXPLAIN through Python's module, without printing; and
# 100,000 and 200,000 statements of every kind. Prints a line for each of ROUNDS rounds (15 where it is not given), and
# then the medians with their ratios. A time is processor time, user and system.
#   benchmarks/parse.sh [WORK [ROUNDS [STATEMENTS]]]
# TOP names the repository whose crates are measured, where the script does not stand in it.
set -euo pipefail
top="${TOP:-$(dirname "$(dirname "$(readlink -f "$0")")")}"
work="${1:-$(mktemp -d /var/tmp/guarddb-parse.XXXX)}"
rounds="${2:-15}"
statements="${3:-100000}"
mkdir -p "$work/crates/parse_bench/src"
cd "$work"
python3 "$top/benchmarks/scratch.py" "$top" parse_bench sql_parser
cat > crates/parse_bench/src/main.rt <<'PROGRAM'
//! Parses each line of standard input, and prints how many lines are statements and how many are not.
#![tactic(auto)]

use sql_parser::parse::parse;
use std::io;

fn main(rt: HostRuntime) -> io::Result<()> {
    let mut statements: u64 = 0;
    let mut refused: u64 = 0;
    for line in rt.lines(rt.alloc()) {
        match parse(rt.alloc(), line?.as_str()) {
            Ok(_) => statements = statements.saturating_add(1),
            Err(_) => refused = refused.saturating_add(1),
        }
    }
    println!(rt; "{statements} statements, {refused} refused")?;
    Ok(())
}
PROGRAM
cat > make_texts.py <<'PROGRAM'
# Statements, one a line: 'shared' of the kinds that sqlite3 knows too, and the same behind EXPLAIN; 'every' and 'twice'
# of every kind
import random, sys
random.seed(1)
count = int(sys.argv[1])

def shared(a, b, c):
    return [
        f"CREATE TABLE t{a} (k BIGINT PRIMARY KEY, x BIGINT NOT NULL, o TEXT);",
        f"CREATE TABLE t{a} (a BIGINT, b TEXT, done BOOLEAN, PRIMARY KEY (a, b));",
        f"DROP TABLE {random.choice(['item', 'sale'])};",
        f"INSERT INTO item VALUES ({a}, 'n{b}', {c}), ({c}, '', 1), ({b}, NULL, -{c});",
        f"INSERT INTO item (id, price) VALUES ({a}, {c} + {c} * {b});",
        f"UPDATE item SET price = price + {c}, name = 'n{b}' WHERE id = {a};",
        f"UPDATE sale SET amount = {c} WHERE NOT (item < {b} OR amount IS NULL);",
        f"DELETE FROM sale WHERE item = {b} AND amount <= {c} AND sale.id > {a};",
        f"SELECT id, name FROM item WHERE price > {c} AND id = {a};",
        f"SELECT * FROM item i WHERE i.price * {c} < {b} OR i.id=1;",
        f"SELECT i.name, s.amount FROM item i JOIN sale s ON s.item = i.id WHERE i.price > {c};",
        f"SELECT s.id, i.price % {c} FROM sale AS s CROSS JOIN item AS i WHERE s.item = i.id;",
        f"SELECT * FROM item WHERE price - {c} >= {b} ORDER BY price DESC, name, id LIMIT {c};",
        f"SELECT i.id FROM item i, sale s WHERE s.item = i.id ORDER BY s.amount LIMIT {c};",
        f"SELECT count(*) FROM sale INNER JOIN item ON item.id = sale.item WHERE amount <> {c};",
        f"SELECT count(*) FROM item WHERE name IS NOT NULL AND price <= {c};",
        random.choice(["BEGIN;", "BEGIN TRANSACTION;"]),
        random.choice(["COMMIT;", "COMMIT TRANSACTION;"]),
        random.choice(["ROLLBACK;", "ROLLBACK TRANSACTION;"]),
    ]

def own(a, b, c):
    return [
        f"CREATE ROLE clerk{a} WITH LOGIN NOSUPERUSER NOBYPASSRLS;",
        f"DROP ROLE clerk{a};",
        f"GRANT clerk{a}, clerk{b} TO staff{c}, auditor WITH ADMIN OPTION;",
        f"REVOKE ADMIN OPTION FOR clerk{a} FROM staff{c}, auditor CASCADE;",
        f"REVOKE clerk{a} FROM staff{c} RESTRICT;",
        f"GRANT SELECT, INSERT, UPDATE ON item TO clerk{a}, PUBLIC WITH GRANT OPTION;",
        f"GRANT ALL PRIVILEGES ON TABLE sale TO staff{c};",
        f"REVOKE GRANT OPTION FOR SELECT, DELETE ON sale FROM clerk{a} CASCADE;",
        f"REVOKE ALL ON item FROM clerk{a}, PUBLIC;",
        f"CREATE POLICY own{c} ON item USING (name = current_user AND price < {c});",
        f"CREATE POLICY low ON item AS RESTRICTIVE FOR UPDATE TO clerk{a} USING (id < {c}) WITH CHECK (price > {b});",
        f"CREATE POLICY new ON sale FOR INSERT TO PUBLIC WITH CHECK (amount >= {c} OR item = {b});",
        f"DROP POLICY own{c} ON item;",
        random.choice([f"ALTER TABLE {t} {f} ROW LEVEL SECURITY;" for t in ("item", "sale") for f in ("ENABLE", "DISABLE", "FORCE", "NO FORCE")]),
        f"SET ROLE clerk{a};",
        random.choice(["SET ROLE NONE;", "RESET ROLE;"]),
        "START TRANSACTION;",
        f"SELECT session_user, current_user, {a} / -({b} - {c});",
    ]

def texts(kinds, count):
    made = []
    while len(made) < count:
        made += kinds(random.randrange(10**5), random.randrange(10**4), random.randrange(1, 1000))
    return made[:count]

def every(a, b, c):
    return shared(a, b, c) + own(a, b, c)

def write(name, lines):
    open(name + ".sql", "w").write("".join(line + "\n" for line in lines))
    print(f"{name}: {len(lines)} statements, {sum(map(len, lines)) / len(lines):.1f} bytes on average")

both = texts(shared, count)
write("shared", both)
write("every", texts(every, count))
write("twice", texts(every, 2 * count))
tables = ["CREATE TABLE item (id BIGINT PRIMARY KEY, name TEXT, price BIGINT);", "CREATE TABLE sale (id BIGINT PRIMARY KEY, item BIGINT, amount BIGINT);"]
open("explain.sql", "w").write("".join(line + "\n" for line in tables + ["EXPLAIN " + text for text in both]))
PROGRAM
cat > prepare.py <<'PROGRAM'
# The seconds of processor time that EXPLAIN of the statements takes, without printing, less that of as many empty ones
import sqlite3, time
c = sqlite3.connect(":memory:", cached_statements=0, isolation_level=None)
lines = open("explain.sql").read().split("\n")
for line in lines[:2]: c.execute(line)
texts = [line for line in lines[2:] if line]
cur = c.cursor()
def timed(texts):
    start = time.process_time()
    for x in texts: cur.execute(x)
    return time.process_time() - start
print(timed(texts) - timed([""] * len(texts)))
PROGRAM
cat > rounds.py <<'PROGRAM'
# Runs the programs in turn, and prints the processor time of each: a line a round, and the medians.
import os, statistics, subprocess, sys
rounds, count = int(sys.argv[1]), int(sys.argv[2])

def run(words, text=None, out=None):
    process = subprocess.Popen(words, stdin=open(text) if text else None, stdout=out or subprocess.PIPE)
    answer = None if out else process.stdout.read().decode()
    _, status, used = os.wait4(process.pid, 0)
    assert status == 0, (words, status)
    return answer, used.ru_utime + used.ru_stime

def parsed(name, count):
    answer, took = run(["./crates/parse_bench/out/parse_bench"], name + ".sql")
    assert answer == f"{count} statements, 0 refused\n", answer
    return took

times = {}
for _ in range(rounds):
    one = {
        "guarddb": parsed("shared", count),
        "EXPLAIN": run(["sqlite3", ":memory:"], "explain.sql", open("/dev/null", "w"))[1],
        "EXPLAIN without printing": float(run([sys.executable, "prepare.py"])[0]),
        "guarddb, every kind": parsed("every", count),
        "guarddb, every kind, twice": parsed("twice", 2 * count),
    }
    print(", ".join(f"{name} {took:.3f}" for name, took in one.items()), "s")
    for name, took in one.items(): times.setdefault(name, []).append(took)
median = {name: statistics.median(those) for name, those in times.items()}
for name, took in median.items():
    print(f"{name}: {took:.3f} s")
for name in ("EXPLAIN", "EXPLAIN without printing"):
    print(f"beside {name}: {median['guarddb'] / median[name]:.3f}")
print(f"twice the statements: {median['guarddb, every kind, twice'] / median['guarddb, every kind']:.2f}")
PROGRAM
python3 make_texts.py "$statements"
[ "$(sqlite3 :memory: < explain.sql 2>&1 > /dev/null)" = '' ] || { echo 'sqlite3 refuses a statement'; exit 1; }
(cd crates/parse_bench && rt run < ../../shared.sql > build.log 2>&1) || { cat crates/parse_bench/build.log; exit 1; }
python3 rounds.py "$rounds" "$statements" | tee rounds.txt
