#!/usr/bin/env bash
# Reads the definitions of 1,024 tables of 16 columns, with their 4,096 privilege descriptors, from a store in memory into
# a catalogue, beside sqlite3 (Python's module) opening a file of as many tables and answering its first statement. Prints
# a line for each of ROUNDS rounds (15 where it is not given), microseconds each, and then the medians with their ratio.
#   benchmarks/catalogue.sh [WORK [ROUNDS]]
set -euo pipefail
top="$(dirname "$(dirname "$(readlink -f "$0")")")"
work="${1:-$(mktemp -d /var/tmp/guarddb-catalogue.XXXX)}"
rounds="${2:-15}"
mkdir -p "$work/crates/catalogue_bench/src"
cd "$work"
python3 "$top/benchmarks/scratch.py" "$top" catalogue_bench catalogue_loading
cat > crates/catalogue_bench/src/main.rt <<'PROGRAM'
//! Times the reading of a catalogue: microseconds of each of the rounds that are asked for.
#![tactic(auto)]

use anyhow::{Result, bail};
use catalogue_loading::load;
use sql_types::name::Name;
use std::alloc::Global;
use std::env;
use std::time::Instant;
use store::{Batch, MemStore, Store};

const TABLES: u32 = 1024;

fn push_number(key: &mut Vec<u8>, number: u32) -> Result<()> {
    key.extend_from_slice(&number.to_be_bytes())?;
    Ok(())
}

fn table_key(alloc: Global, number: u32) -> Result<Vec<u8>> {
    let mut key = Vec::new(alloc);
    key.push(3)?;
    key.push(b't')?;
    for place in [1000, 100, 10, 1] {
        key.push(b'0'.wrapping_add((number / place % 10) as u8))?;
    }
    Ok(key)
}

fn table_value(alloc: Global, number: u32) -> Result<Vec<u8>> {
    let mut value = Vec::new(alloc);
    push_number(&mut value, number)?;
    value.extend_from_slice(b"root\0\0\x10")?;
    for column in 0..16u8 {
        value.extend_from_slice(b"column_")?;
        value.push(b'a'.wrapping_add(column))?;
        let first = column == 0;
        value.extend_from_slice(&[0, if first { 1 } else { 2 }, if first { 1 } else { 0 }])?;
    }
    value.extend_from_slice(&[1, 0])?;
    Ok(value)
}

fn put(batch: &mut Batch, key: &[u8], value: &[u8]) -> Result<()> {
    if key.len() < 1 || key.len() > 205 || value.len() > 1200 {
        bail!("a record of no size that a store takes");
    }
    batch.put(key, value)?;
    Ok(())
}

fn put_table(alloc: Global, number: u32, batch: &mut Batch) -> Result<()> {
    let key = table_key(alloc, number)?;
    let value = table_value(alloc, number)?;
    put(batch, &key, &value)?;
    for action in 1..5u8 {
        let mut key = Vec::new(alloc);
        key.push(4)?;
        push_number(&mut key, number)?;
        key.extend_from_slice(&[action, 0])?;
        key.extend_from_slice(b"root\0")?;
        put(batch, &key, &[1])?;
    }
    Ok(())
}

fn main(rt: HostRuntime) -> Result<()> {
    let mut words = Vec::new(rt.alloc());
    for word in env::args(&rt)? {
        words.push(word)?;
    }
    if words.len() < 2 {
        bail!("usage: catalogue_bench ROUNDS");
    }
    let rounds: u64 = words[1].as_str().parse()?;
    let Some(admin) = Name::from_str(rt.alloc(), "root")? else {
        bail!("no name");
    };
    let Ok(mut store) = MemStore::new(rt.alloc(), &admin) else {
        bail!("no memory");
    };
    let mut batch = Batch::new(rt.alloc());
    for number in 1..=TABLES {
        put_table(rt.alloc(), number, &mut batch)?;
    }
    if store.commit(&batch).is_err() {
        bail!("no commit");
    }
    for _ in 0..rounds {
        let start = Instant::now(&rt)?;
        let tables = match load(rt.alloc(), &mut store) {
            Ok(catalogue) => catalogue.tables().len(),
            Err(_) => 0,
        };
        let time = start.elapsed(&rt)?.as_micros();
        println!(rt; "{tables} {time}")?;
    }
    Ok(())
}
PROGRAM
cat > sqlite.py <<'PROGRAM'
# A file of 1,024 tables of 16 columns: microseconds of opening it and of the first statement, each round in a new connection.
import os, sqlite3, sys, time
if os.path.exists("tables.db"):
    os.remove("tables.db")
c = sqlite3.connect("tables.db")
columns = ", ".join(["column_a INTEGER PRIMARY KEY"] + [f"column_{chr(97 + i)} TEXT" for i in range(1, 16)])
for number in range(1, 1025):
    c.execute(f"CREATE TABLE t{number:04} ({columns})")
c.commit()
c.close()
for _ in range(int(sys.argv[1])):
    start = time.perf_counter()
    c = sqlite3.connect("tables.db")
    found = len(c.execute("SELECT column_a FROM t1024 LIMIT 1").fetchall())
    print(found, int((time.perf_counter() - start) * 1e6), flush=True)
    c.close()
PROGRAM
(cd crates/catalogue_bench && rt run -- 1 > build.log 2>&1) || { cat crates/catalogue_bench/build.log; exit 1; }
crates/catalogue_bench/out/catalogue_bench "$rounds" | tee ours
python3 sqlite.py "$rounds" | tee theirs
python3 - <<'PROGRAM'
import statistics
ours, theirs = (statistics.median(int(line.split()[1]) for line in open(name)) for name in ["ours", "theirs"])
print(f"catalogue {ours / 1e3:.2f} ms, sqlite3 {theirs / 1e3:.2f} ms (ratio {ours / theirs:.2f})")
PROGRAM
