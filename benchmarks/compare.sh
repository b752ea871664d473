#!/usr/bin/env bash
# Statements of each kind beside other programs, a line of a table for each: in memory beside 'sqlite3 :memory:' (processor time, less
# that of filling the tables), on a file beside 'sqlite3' with a write-ahead log and synchronous=FULL (by the clock), and over a Unix
# socket beside PostgreSQL 15 (by the clock, one statement at a time). Tables have 100,000 rows of a BIGINT key, a BIGINT and a TEXT; under
# a policy sqlite3 is asked with the policy's condition. Prints the microseconds of a statement, the least of ROUNDS rounds (5 where it is
# not given), which alternate, and the ratios of the least and of the medians.
#   benchmarks/compare.sh [WORK [ROUNDS [PATTERN..]]]
# A PATTERN names works by their first letters, with the place behind a stroke: 'join', 'by key/socket', '*/file'. The pattern 'growth'
# alone measures tables of 1,000 to 1,000,000 rows and draws docs/growth.svg. WORK is a folder for files (a new one in /var/tmp where it is
# not given); GUARDDB names the program in place of ./guarddb. The table is printed as docs/performance.md has it.
set -euo pipefail
top="$(dirname "$(dirname "$(readlink -f "$0")")")"
work="${1:-$(mktemp -d /var/tmp/guarddb-compare.XXXX)}"
rounds="${2:-5}"
shift $(($# < 2 ? $# : 2))
program="$(readlink -f "${GUARDDB:-$top/guarddb}")"
[[ -n ${GUARDDB:-} ]] || : | "$program"    # builds it
mkdir -p "$work"
chmod 755 "$work"
cd "$work"
work="$PWD"
cc -O2 -Wall -o client "$top/benchmarks/client.c"
. "$top/benchmarks/postgres.sh"
trap stop_postgres EXIT
at=none
if [[ ${1:-} == growth ]]; then
  python3 "$top/benchmarks/compare.py" "$program" "$rounds" none growth | tee growth.txt
  python3 "$top/benchmarks/growth_picture.py" < growth.txt > "$top/docs/growth.svg"
  exit
fi
if start_postgres; then at="$work/postgres"; fi
cd "$work"
python3 "$top/benchmarks/compare.py" "$program" "$rounds" "$at" "$@"
