#!/usr/bin/env bash
# Many clients at once: point SELECTs, without a row policy and under one, INSERTs of one row with a commit each, nine SELECTs to an
# INSERT, and blocks of two INSERTs, of 1 to 64 clients (of 256, too, where they are SELECTs and INSERTs) over 'guarddb serve --clients'
# beside PostgreSQL 15, each over its Unix socket; and what a SELECT takes beside 1, 16 and 63 clients that insert.
# Both have tables of 10,000 rows, one of them of 100 tenants, in a file system of the folder WORK (a new one in /var/tmp where it is not
# given), and both put each commit on the disk before they answer. PostgreSQL looks nothing up by current_user, which is no text there,
# and reads the whole table under the policy. Each client is a process in C, which sends its texts each once the answer to the one before
# is there, in a session of its own role. There are ROUNDS rounds (5 where it is not given), which alternate. Prints the medians, in
# statements a second of all clients together, with their ratios, and the least and the most that one client got of the last round;
# and what half of the SELECTs beside writers took at most, and 99 of 100, by the medians of the rounds.
#   benchmarks/clients.sh [WORK [ROUNDS]]
# The program is ./guarddb, or what GUARDDB names. PostgreSQL is installed with apt-get where it is not there and that can be
# done, and Guarddb is measured alone where not. It runs as the user postgres, or nobody, where the script runs as root.
set -euo pipefail
top="$(dirname "$(dirname "$(readlink -f "$0")")")"
work="${1:-$(mktemp -d /var/tmp/guarddb-clients.XXXX)}"
rounds="${2:-5}"
program="$(readlink -f "${GUARDDB:-$top/guarddb}")"
[[ -n ${GUARDDB:-} ]] || : | "$program"    # builds it
mkdir -p "$work"
chmod 755 "$work"
cd "$work"
work="$PWD"

cc -O2 -Wall -o client "$top/benchmarks/client.c"

python3 - "$rounds" <<'PROGRAM'
import random, sys
random.seed(1)
ROWS, TENANTS, MOST, SELECTS, INSERTS = 100, 100, 256, 2_000, 200
with open("setup", "w") as out:
    out.write("CREATE TABLE t (o TEXT, k BIGINT, x TEXT, PRIMARY KEY (o, k))\nALTER TABLE t ENABLE ROW LEVEL SECURITY\n"
              "CREATE POLICY own ON t USING (o = current_user)\n")
    out.write("CREATE TABLE p (k BIGINT PRIMARY KEY, x TEXT)\nBEGIN\n")
    for low in range(0, ROWS * TENANTS, 200):
        out.write("INSERT INTO p VALUES " + ", ".join(f"({k}, 'row {k}')" for k in range(low, low + 200)) + "\n")
    out.write("COMMIT\n")
    for tenant in range(MOST):
        out.write(f"CREATE ROLE u{tenant} LOGIN\nGRANT SELECT, INSERT ON t TO u{tenant}\nGRANT SELECT ON p TO u{tenant}\n")
    for tenant in range(TENANTS):
        rows = ", ".join(f"('u{tenant}', {k}, 'row {k}')" for k in range(ROWS))
        out.write(f"INSERT INTO t VALUES {rows}\n")
fresh = [1_000] * MOST          # the next key of each client
def select():
    return f"SELECT x FROM p WHERE k = {random.randrange(ROWS * TENANTS)}\n"
def insert(client):
    fresh[client] += 1
    return f"INSERT INTO t VALUES ('u{client}', {fresh[client]}, 'row {fresh[client]}')\n"
def texts(kind, client, clients):
    """What one of so many clients sends."""
    if kind == "inserts":
        return [insert(client) for _ in range(INSERTS)]
    if kind == "mixed":
        return [insert(client) if turn % 10 == 9 else select() for turn in range(2 * INSERTS)]
    if kind == "blocks":
        return [text for _ in range(INSERTS // 4) for text in ("BEGIN\n", insert(client), insert(client), "COMMIT\n")]
    return [insert(client) for _ in range(20_000 // clients)]
for client in range(MOST):
    with open(f"selects-{client}", "w") as out:
        out.writelines(select() for _ in range(SELECTS))
    with open(f"guarded-{client}", "w") as out:
        out.writelines(f"SELECT x FROM t WHERE k = {random.randrange(ROWS)}\n" for _ in range(SELECTS))
counts = {"inserts": (1, 4, 16, 64, 256), "mixed": (1, 4, 16, 64), "blocks": (1, 4, 16, 64), "writers": (1, 16, 63)}
for number in range(int(sys.argv[1])):
    for kind, clients in ((kind, clients) for kind, each in counts.items() for clients in each):
        for client in range(clients):
            with open(f"{kind}-{clients}-{number}-{client}", "w") as out:
                out.writelines(texts(kind, client, clients))
PROGRAM

servers=()
stop() {
  kill ${servers[@]+"${servers[@]}"} 2>/dev/null || true
  stop_postgres
}
trap stop EXIT

. "$top/benchmarks/postgres.sh"

"$program" format journaled --pages 16384 --admin root --journal
"$program" serve journaled --socket "$work/at" --clients 1000 --wait 60 >>"$work/log" 2>&1 &
servers+=("$!")
./client guarddb "$work/at" setup
measured=(guarddb)
if start_postgres; then
  measured+=(postgres)
  "$bin/postgres" --version
  ./client postgres "$work/postgres" setup
fi
cd "$work"

place() { if [[ $1 == guarddb ]]; then echo "$work/at"; else echo "$work/postgres"; fi; }

# Starts so many clients, each with its own texts, which print what each has printed.
start_clients() {
  local server="$1" kind="$2" clients="$3" number="$4" client texts
  for client in $(seq 0 $((clients - 1))); do
    texts="$kind-$clients-$number-$client"
    [[ $kind != selects && $kind != guarded ]] || texts="$kind-$client"
    ./client "$server" "$(place "$server")" "$texts" "u$client" &
  done
}

wait_for_clients() { wait $(jobs -p | grep -vx "$(IFS='|'; echo "${servers[*]}")"); }

at_once() {
  start_clients "$@"
  wait_for_clients
}

# What a SELECT takes beside so many clients that insert.
beside() {
  start_clients "$1" writers "$2" "$3" >/dev/null
  LATENCIES=1 ./client "$1" "$(place "$1")" selects-0 u200
  wait_for_clients
}

for number in $(seq 0 $((rounds - 1))); do
  for kind in selects guarded inserts mixed blocks; do
    for clients in 1 4 16 64 256; do
      [[ $clients != 256 || $kind == selects || $kind == inserts ]] || continue
      for server in "${measured[@]}"; do
        at_once "$server" "$kind" "$clients" "$number" | sed "s/^/$server $kind $clients $number /"
      done
    done
  done
  for writers in 1 16 63; do
    for server in "${measured[@]}"; do
      beside "$server" "$writers" "$number" | sed "s/^/$server $writers /" >>latencies
    done
  done
done >times
python3 - times latencies <<'PROGRAM'
import collections, statistics, sys
rounds = collections.defaultdict(lambda: collections.defaultdict(list))
for line in open(sys.argv[1]):
    server, kind, clients, number, count, _, _, _, micros, _ = line.split()
    rounds[kind, int(clients), server][int(number)].append((int(count), int(micros)))
def rate(found):
    return sum(count for count, _ in found) * 1e6 / max(micros for _, micros in found)
for kind, clients, server in sorted(rounds):
    if server != "guarddb":
        continue
    mine = rounds[kind, clients, server]
    ours = statistics.median(map(rate, mine.values()))
    each = [count * 1e6 / micros for count, micros in mine[max(mine)]]
    said = f"{kind}, {clients} clients: Guarddb {ours:.0f} a second"
    if (kind, clients, "postgres") in rounds:
        other = statistics.median(map(rate, rounds[kind, clients, "postgres"].values()))
        said += f", PostgreSQL {other:.0f}, ratio {ours / other:.2f}"
    print(f"{said}; one client {min(each):.0f} to {max(each):.0f}")
taken = collections.defaultdict(list)
for line in open(sys.argv[2]):
    server, writers, _, half, *_, most, _ = line.split()
    taken[int(writers), server].append((int(half), int(most)))
for (writers, server), each in sorted(taken.items()):
    half, most = (statistics.median(times) for times in zip(*each))
    print(f"a SELECT beside {writers} that insert, {server}: half within {half:.0f} us, 99 of 100 within {most:.0f} us")
PROGRAM
