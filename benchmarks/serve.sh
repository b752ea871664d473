#!/usr/bin/env bash
# One client in one connection: point SELECTs, and INSERTs of one row with a commit each, over 'guarddb serve' beside PostgreSQL
# 15. Both have a table of 10,000 rows in a file system of the folder WORK (a new one in /var/tmp where it is not given), and
# both put each commit on the disk before they answer. A client in C sends the same texts to both, each once the answer to the
# one before is there: to Guarddb over a Unix socket and, to other databases, over TCP and over a Unix socket to a file with a journal,
# and to PostgreSQL over its Unix socket, by simple queries.
# Prints a line for each of ROUNDS rounds (7 where it is not given), which alternate, and then the medians, in statements a
# second, with their ratios. The client counts the rows that come; where the two servers differ in them, it says so.
#   benchmarks/serve.sh [WORK [ROUNDS]]
# The program is ./guarddb, or what GUARDDB names. PostgreSQL is installed with apt-get where it is not there and that can be
# done, and Guarddb is measured alone where not. It runs as the user postgres, or nobody, where the script runs as root.
set -euo pipefail
top="$(dirname "$(dirname "$(readlink -f "$0")")")"
work="${1:-$(mktemp -d /var/tmp/guarddb-serve.XXXX)}"
rounds="${2:-7}"
program="$(readlink -f "${GUARDDB:-$top/guarddb}")"
[[ -n ${GUARDDB:-} ]] || : | "$program"    # builds it
mkdir -p "$work"
chmod 755 "$work"
cd "$work"
work="$PWD"

cc -O2 -Wall -o client "$top/benchmarks/client.c"

python3 - "$rounds" <<'PROGRAM'
import random, sys
random.seed(1)
ROWS, SELECTS, INSERTS = 10_000, 10_000, 1_000
with open("setup", "w") as out:
    out.write("CREATE TABLE t (k BIGINT PRIMARY KEY, x BIGINT, o TEXT)\nBEGIN\n")
    for low in range(0, ROWS, 200):
        out.write("INSERT INTO t VALUES " + ", ".join(f"({k}, {k % 97}, 'row {k}')" for k in range(low, low + 200)) + "\n")
    out.write("COMMIT\n")
keys = list(range(ROWS, ROWS + int(sys.argv[1]) * INSERTS))
random.shuffle(keys)
for number in range(int(sys.argv[1])):
    with open(f"selects-{number}", "w") as out:
        out.writelines(f"SELECT x, o FROM t WHERE k = {random.randrange(ROWS)}\n" for _ in range(SELECTS))
    with open(f"inserts-{number}", "w") as out:
        out.writelines(f"INSERT INTO t VALUES ({k}, {k % 97}, 'row {k}')\n" for k in keys[number * INSERTS:][:INSERTS])
PROGRAM

servers=()
stop() {
  kill ${servers[@]+"${servers[@]}"} 2>/dev/null || true
  stop_postgres
}
trap stop EXIT

. "$top/benchmarks/postgres.sh"

# A server over a new database, at a place that its further words name. One whose name begins so has a journal.
start_guarddb() {
  local journal=()
  [[ $1 != journal* ]] || journal=(--journal)
  "$program" format "$1" --pages 16384 --admin root "${journal[@]}"
  "$program" serve "$1" "$2" "$3" --connections 65535 >>"$work/log" 2>&1 &
  servers+=("$!")
  ./client guarddb "$3" setup
}

port=$((20000 + RANDOM % 10000))
socket="$work/at"
start_guarddb over_socket --socket "$socket"
start_guarddb over_port --port "$port"
start_guarddb journaled --socket "$work/journal_at"
measured=(socket journal port)
if start_postgres; then
  measured+=(postgres)
  "$bin/postgres" --version
  ./client postgres "$work/postgres" setup
fi
cd "$work"

place() {
  case $1 in
    socket) echo "guarddb $socket" ;;
    journal) echo "guarddb $work/journal_at" ;;
    port) echo "guarddb $port" ;;
    postgres) echo "postgres $work/postgres" ;;
  esac
}
for number in $(seq 0 $((rounds - 1))); do
  for kind in selects inserts; do
    for one in "${measured[@]}"; do
      read -r server at <<<"$(place "$one")"
      echo "${one}_$kind $(./client "$server" "$at" "$kind-$number")"
    done
  done
done | tee times
python3 - times <<'PROGRAM'
import statistics, sys
rates, rows = {}, {}
for line in open(sys.argv[1]):
    name, count, _, found, _, micros, _ = line.split()
    rates.setdefault(name, []).append(int(count) * 1e6 / int(micros))
    rows.setdefault(name, []).append(int(found))
for kind in ("selects", "inserts"):
    other = rates.get("postgres_" + kind)
    for place in ("socket", "journal", "port"):
        ours = statistics.median(rates[f"{place}_{kind}"])
        said = f", PostgreSQL {statistics.median(other):.0f}, ratio {ours / statistics.median(other):.2f}" if other else ""
        print(f"{kind}, {place}: Guarddb {ours:.0f} a second{said}")
        if other and rows[f"{place}_{kind}"] != rows["postgres_" + kind]:
            print(f"{kind}: the two servers gave different numbers of rows")
PROGRAM
