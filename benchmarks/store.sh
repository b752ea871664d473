#!/usr/bin/env bash
# What a store in pages costs, without a journal and with one, beside sqlite3 (Python's module, synchronous=FULL) on a file of the same disk. 100,000 rows
# have random keys of 16 bytes and values of 64. Timed are 2,000 commits, each of one changed row, in each journal mode of
# sqlite3; 100,000 gets by key and a scan of all rows, both from a cache that has every page; and 100,000 puts into a new
# file, 1,000 a commit. sqlite3 gets by one statement for all keys, and by one for each; its table is WITHOUT ROWID. Each
# run of commits writes other bytes than the run before, since sqlite3 writes nothing where a row gets the bytes that it
# has, and checks that all were made. What the last commits of the store with a journal have changed waits there while it is
# read. Prints a line for each timed run of ROUNDS rounds (9 where it is not given), and
# then the medians with their ratios: below 1 Guarddb is faster. Before them it prints what is counted on a device in
# memory: the pages and the single sectors that a commit of one changed row writes, its syncs, the same of 2,100 commits of a
# store with a journal, how full the leaves are
# after 100,000 puts in random order, in rising order after all other keys, and in rising order before one other key, and
# after 9 of 10 of the rows of the first two are removed: of rows in random order those with mixed keys, and of rows in
# rising order the first ones.
#   benchmarks/store.sh [WORK [ROUNDS]]
set -euo pipefail
top="$(dirname "$(dirname "$(readlink -f "$0")")")"
work="${1:-$(mktemp -d /var/tmp/guarddb-store.XXXX)}"
rounds="${2:-9}"
mkdir -p "$work/crates/store_bench/src"
work="$(readlink -f "$work")"
cd "$work"
python3 "$top/benchmarks/scratch.py" "$top" store_bench journal_store
cat > crates/store_bench/src/main.rt <<'PROGRAM'
//! Counts and times a store: `store_bench counts`, `store_bench make PATH`, `store_bench journal PATH`, `store_bench commits PATH RUN`,
//! `store_bench reads PATH`, or `store_bench puts PATH`.
#![tactic(auto)]

mod counted;
mod rows;
mod timed;

use anyhow::{Result, bail};
use counted::print_counts;
use std::env;
use timed::{make, time_commits, time_puts, time_reads};

fn main(rt: HostRuntime) -> Result<()> {
    let mut words = Vec::new(rt.alloc());
    for word in env::args(&rt)? {
        words.push(word)?;
    }
    if words.len() == 2 && words[1].as_str() == "counts" {
        print_counts(&rt)
    } else if words.len() == 3 && words[1].as_str() == "make" {
        make(&rt, words[2].as_str(), false)
    } else if words.len() == 3 && words[1].as_str() == "journal" {
        make(&rt, words[2].as_str(), true)
    } else if words.len() == 4 && words[1].as_str() == "commits" {
        time_commits(&rt, words[2].as_str(), words[3].as_str().parse()?)
    } else if words.len() == 3 && words[1].as_str() == "reads" {
        time_reads(&rt, words[2].as_str())
    } else if words.len() == 3 && words[1].as_str() == "puts" {
        time_puts(&rt, words[2].as_str())
    } else {
        bail!("usage: store_bench counts|make PATH|journal PATH|commits PATH RUN|reads PATH|puts PATH");
    }
}
PROGRAM
cat > crates/store_bench/src/rows.rt <<'PROGRAM'
//! Rows, and stores of them.
use anyhow::{Result, bail};
use cow_pages::page_count;
use journal_store::{DeviceStore, JournalStore};
use kv_store::{Batch, Entry, MAX_CACHE_PAGES, Map, PageStore, Store};
use sector_device::{Device, WriteProtected};
use std::alloc::Global;
use store::Cursor;

/// The rows of a store, beside the one that it is made with.
pub const ROWS: u32 = 100_000;

/// The rows that are removed.
const REMOVED_ROWS: u32 = 90_000;

/// The rows that are put or removed at once.
const BATCH_ROWS: u32 = 1_000;

/// The commits of one row each.
pub const COMMITS: u32 = 2_000;

/// What begins the keys that come after that of the record that a store is made with.
const LAST_KEYS: u64 = 0xff00_0000_0000_0000;

/// In what order keys come.
#[derive(Clone, Copy, Drop)]
pub enum Order {
    /// They rise, and come after all others.
    Rising,
    /// They rise, and a record that is there comes after them.
    RisingBeforeOne,
    /// They are mixed.
    Random,
}

fn mixed(number: u64) -> u64 {
    let a = (number ^ (number >> 30)).wrapping_mul(0xbf58_476d_1ce4_e5b9);
    let b = (a ^ (a >> 27)).wrapping_mul(0x94d0_49bb_1331_11eb);
    b ^ (b >> 31)
}

fn key_of(number: u32, order: Order) -> [u8; 16] {
    let mut key = [0; 16];
    let first = match order {
        Order::Rising => u64::from(number) | LAST_KEYS,
        Order::RisingBeforeOne => u64::from(number),
        Order::Random => mixed(u64::from(number).wrapping_mul(0x9e37_79b9_7f4a_7c15)),
    };
    key[..8].copy_from_slice(&first.to_be_bytes());
    key
}

/// A store on a device, with a journal or without.
pub type BenchStore<D> = DeviceStore<WriteProtected<D>>;

/// A new store of one row on a device whose content is lost, with a journal or without.
pub fn new_store<D: Device + Drop>(
    alloc: Global,
    mut device: WriteProtected<D>,
    has_journal: bool,
) -> Result<BenchStore<D>> {
    if page_count(device.sectors()).is_none() {
        bail!("the device has no size of a store");
    }
    let key = Vec::from_slice(alloc, b"first")?;
    let value = Vec::from_slice(alloc, b"value")?;
    let first = Entry::from_parts(key, value);
    let made = if has_journal {
        JournalStore::format(alloc, &mut device, &first)
    } else {
        PageStore::format(alloc, &mut device, &first)
    };
    if made.is_err() {
        bail!("the store was not made");
    }
    opened(alloc, device)
}

/// The store on a device.
pub fn opened<D: Device + Drop>(alloc: Global, device: WriteProtected<D>) -> Result<BenchStore<D>> {
    match DeviceStore::open_with(alloc, device, MAX_CACHE_PAGES) {
        Ok(store) => Ok(store),
        Err(_) => bail!("the store was not opened"),
    }
}

/// The name of a kind of store.
pub fn kind_of<D: Device>(store: &BenchStore<D>) -> &'static str {
    match store {
        DeviceStore::Pages(_) => "guarddb",
        DeviceStore::Journaled(_) => "journal",
    }
}

/// Puts the rows of one batch.
fn put_batch<S: Store>(alloc: Global, store: &mut S, first: u32, order: Order) -> Result<()> {
    let mut batch = Batch::new(alloc);
    for row in 0..BATCH_ROWS {
        let number = first.wrapping_add(row);
        batch.put(&key_of(number, order), &[(number % 251) as u8; 64])?;
    }
    if store.commit(&batch).is_err() {
        bail!("a batch was not committed");
    }
    Ok(())
}

/// Puts all rows.
pub fn put_rows<S: Store>(alloc: Global, store: &mut S, order: Order) -> Result<()> {
    for batch in 0..ROWS / BATCH_ROWS {
        put_batch(alloc, store, batch.wrapping_mul(BATCH_ROWS), order)?;
    }
    Ok(())
}

/// Removes the rows of one batch.
fn remove_batch<S: Store>(alloc: Global, store: &mut S, first: u32, order: Order) -> Result<()> {
    let mut batch = Batch::new(alloc);
    for row in 0..BATCH_ROWS {
        batch.remove(&key_of(first.wrapping_add(row), order))?;
    }
    if store.commit(&batch).is_err() {
        bail!("a batch was not committed");
    }
    Ok(())
}

/// Removes the first nine of ten rows.
pub fn remove_rows<S: Store>(alloc: Global, store: &mut S, order: Order) -> Result<()> {
    for batch in 0..REMOVED_ROWS / BATCH_ROWS {
        remove_batch(alloc, store, batch.wrapping_mul(BATCH_ROWS), order)?;
    }
    Ok(())
}

/// Changes the value of one row, in a commit of its own.
pub fn change_row<S: Store>(alloc: Global, store: &mut S, number: u32, byte: u8) -> Result<()> {
    let mut batch = Batch::new(alloc);
    batch.put(&key_of(number, Order::Random), &[byte; 64])?;
    if store.commit(&batch).is_err() {
        bail!("a row was not changed");
    }
    Ok(())
}

/// Changes rows, each in a commit of its own, to other bytes than in the run before.
pub fn change_rows<S: Store>(alloc: Global, store: &mut S, run: u32) -> Result<()> {
    for i in 0..COMMITS {
        let number = i.wrapping_mul(7919) % ROWS;
        change_row(alloc, store, number, (i.wrapping_add(run) % 251) as u8)?;
    }
    Ok(())
}

/// Gets each row once, in another order than that of the keys: the bytes of all values.
pub fn get_rows<M: Map>(alloc: Global, map: &mut M) -> Result<u64> {
    let mut entry = Entry::new(alloc);
    let mut bytes = 0u64;
    for i in 0..ROWS {
        let number = i.wrapping_mul(7919) % ROWS;
        match map.get(&key_of(number, Order::Random), &mut entry) {
            Ok(true) => bytes = bytes.wrapping_add(entry.value().len() as u64),
            _ => bail!("a row was not found"),
        }
    }
    Ok(bytes)
}

/// Scans all rows: the bytes of all keys and values.
pub fn scan_rows<M: Map>(alloc: Global, map: &mut M) -> Result<u64> {
    let mut cursor = Cursor::over(alloc, b"")?;
    let mut bytes = 0u64;
    for _ in 0..=ROWS {
        match cursor.advance(map) {
            Ok(true) => {
                let length = cursor
                    .entry()
                    .key()
                    .len()
                    .wrapping_add(cursor.entry().value().len());
                bytes = bytes.wrapping_add(length as u64);
            }
            _ => bail!("a row is missing"),
        }
    }
    Ok(bytes)
}
PROGRAM
cat > crates/store_bench/src/timed.rt <<'PROGRAM'
//! What is timed, on a file.
use crate::rows::{
    COMMITS, Order, change_rows, get_rows, kind_of, new_store, opened, put_rows, scan_rows,
};
use anyhow::{Result, bail};
use kv_store::Store;
use sector_device::{FileDevice, WriteProtected};
use std::time::Instant;

const FILE_PAGES: u32 = 16_384;

/// Makes a file with all rows, with a journal or without.
pub fn make(rt: &HostRuntime, path: &str, has_journal: bool) -> Result<()> {
    let device = WriteProtected::new(FileDevice::make(rt, path, FILE_PAGES)?);
    let mut store = new_store(rt.alloc(), device, has_journal)?;
    put_rows(rt.alloc(), &mut store, Order::Random)
}

/// Times commits of one changed row each.
pub fn time_commits(rt: &HostRuntime, path: &str, run: u32) -> Result<()> {
    let mut store = opened(rt.alloc(), WriteProtected::new(FileDevice::open(rt, path)?))?;
    scan_rows(rt.alloc(), &mut store)?;
    let number = store.number();
    let start = Instant::now(rt)?;
    change_rows(rt.alloc(), &mut store, run)?;
    let micros = start.elapsed(rt)?.as_micros();
    let (kind, risen) = (kind_of(&store), store.number().wrapping_sub(number));
    // With a journal the number stays where what waits goes into the pages.
    if risen > u64::from(COMMITS) || risen < u64::from(COMMITS) && kind == "guarddb" {
        bail!("a commit was not made");
    }
    println!(rt; "commits {kind} {micros}")?;
    Ok(())
}

/// Times gets and a scan, after a scan.
pub fn time_reads(rt: &HostRuntime, path: &str) -> Result<()> {
    let mut store = opened(rt.alloc(), WriteProtected::new(FileDevice::open(rt, path)?))?;
    let all = scan_rows(rt.alloc(), &mut store)?;
    let start = Instant::now(rt)?;
    let values = get_rows(rt.alloc(), &mut store)?;
    let gets = start.elapsed(rt)?.as_micros();
    let start = Instant::now(rt)?;
    let bytes = scan_rows(rt.alloc(), &mut store)?;
    let scan = start.elapsed(rt)?.as_micros();
    if bytes != all || values == 0 {
        bail!("a row was read otherwise");
    }
    let kind = kind_of(&store);
    println!(rt; "gets {kind} {gets}")?;
    println!(rt; "scan {kind} {scan}")?;
    Ok(())
}

/// Times puts into a new file.
pub fn time_puts(rt: &HostRuntime, path: &str) -> Result<()> {
    let device = WriteProtected::new(FileDevice::make(rt, path, FILE_PAGES)?);
    let mut store = new_store(rt.alloc(), device, false)?;
    let start = Instant::now(rt)?;
    put_rows(rt.alloc(), &mut store, Order::Random)?;
    let micros = start.elapsed(rt)?.as_micros();
    println!(rt; "puts guarddb {micros}")?;
    Ok(())
}
PROGRAM
cat > crates/store_bench/src/counted.rt <<'PROGRAM'
//! What is counted, on a device in memory.
use crate::rows::{BenchStore, Order, ROWS, change_row, new_store, put_rows, remove_rows};
use anyhow::{Result, bail};
use cow_pages::{CowPages, PAGE_SIZE};
use page_nodes::{NodeKind, kind_of};
use sector_device::{Device, DeviceFault, WriteProtected, MemDevice, SECTOR_SIZE};

const MEMORY_PAGES: u32 = 16_384;

/// A device, and how many pages and single sectors were written and how many syncs were made.
#[derive(Drop)]
struct Counting<D: Device> {
    device: D,
    pages: u64,
    sectors: u64,
    syncs: u64,
}

impl<D: Device> Counting<D> {
    fn new(device: D) -> Self {
        Counting {
            device,
            pages: 0,
            sectors: 0,
            syncs: 0,
        }
    }

    fn counts(&self) -> (u64, u64, u64) {
        (self.pages, self.sectors, self.syncs)
    }
}

impl<D: Device> Device for Counting<D> {
    ghost state = { λ d. D.state d.device };

    ghost content_left = { λ d s faithful inside. D.content_left d.device s faithful inside };

    ghost beside_behind = { λ d s behind. D.beside_behind d.device s behind };

    ghost only_now = { λ d faithful. D.only_now d.device faithful };

    fn sectors(&self) -> u32 {
        self.device.sectors()
    }

    fn failures(&self) -> u64 {
        self.device.failures()
    }

    fn read(&mut self, sector: u32, bytes: &mut [u8; SECTOR_SIZE]) -> Result<(), DeviceFault> {
        self.device.read(sector, bytes)
    }

    fn write(&mut self, sector: u32, bytes: &[u8; SECTOR_SIZE]) -> Result<(), DeviceFault> {
        self.sectors = self.sectors.wrapping_add(1);
        self.device.write(sector, bytes)
    }

    fn read_page(&mut self, first: u32, bytes: &mut [u8; PAGE_SIZE]) -> Result<(), DeviceFault> {
        self.device.read_page(first, bytes)
    }

    fn write_page(&mut self, first: u32, bytes: &[u8; PAGE_SIZE]) -> Result<(), DeviceFault> {
        self.pages = self.pages.wrapping_add(1);
        self.device.write_page(first, bytes)
    }

    fn sync(&mut self) -> Result<(), DeviceFault> {
        self.syncs = self.syncs.wrapping_add(1);
        self.device.sync()
    }
}

/// The leaves of the tree in a store.
fn leaves_of<D: Device + Drop>(rt: &HostRuntime, store: BenchStore<D>) -> Result<u32> {
    let Ok(mut pages) = CowPages::open(rt.alloc(), store.into_device()) else {
        bail!("the pages were not opened");
    };
    let mut bytes = [0; PAGE_SIZE];
    let mut leaves = 0u32;
    for page in 0..MEMORY_PAGES {
        if pages.is_used(page) {
            if pages.read(page, &mut bytes).is_err() {
                bail!("a page was not read");
            }
            if let Some(NodeKind::Leaf) = kind_of(&bytes) {
                leaves = leaves.wrapping_add(1);
            }
        }
    }
    Ok(leaves)
}

/// Prints the counts of so many commits of one changed row each.
fn print_commits(rt: &HostRuntime, has_journal: bool, commits: u32) -> Result<()> {
    let device = WriteProtected::new(Counting::new(MemDevice::new(rt.alloc(), MEMORY_PAGES)?));
    let mut store = new_store(rt.alloc(), device, has_journal)?;
    put_rows(rt.alloc(), &mut store, Order::Random)?;
    let (pages, sectors, syncs) = store.device().device().counts();
    for i in 1..=commits {
        change_row(rt.alloc(), &mut store, i.wrapping_mul(7919) % ROWS, 255)?;
    }
    let (all_pages, all_sectors, all_syncs) = store.device().device().counts();
    let pages = all_pages.wrapping_sub(pages);
    let sectors = all_sectors.wrapping_sub(sectors);
    let syncs = all_syncs.wrapping_sub(syncs);
    println!(rt; "commits {commits} {pages} {sectors} {syncs}")?;
    Ok(())
}

/// The leaves of rows that were put in this order.
fn leaves_after(rt: &HostRuntime, order: Order) -> Result<u32> {
    let device = WriteProtected::new(MemDevice::new(rt.alloc(), MEMORY_PAGES)?);
    let mut store = new_store(rt.alloc(), device, false)?;
    put_rows(rt.alloc(), &mut store, order)?;
    leaves_of(rt, store)
}

/// The leaves of the rows that are left where nine of ten were removed.
fn leaves_after_removals(rt: &HostRuntime, order: Order) -> Result<u32> {
    let device = WriteProtected::new(MemDevice::new(rt.alloc(), MEMORY_PAGES)?);
    let mut store = new_store(rt.alloc(), device, false)?;
    put_rows(rt.alloc(), &mut store, order)?;
    remove_rows(rt.alloc(), &mut store, order)?;
    leaves_of(rt, store)
}

/// Prints the counts of a commit of one changed row, the leaves of rows that were put in each order, and those that are left after
/// removals.
pub fn print_counts(rt: &HostRuntime) -> Result<()> {
    print_commits(rt, false, 1)?;
    print_commits(rt, true, 2_100)?;
    let leaves = leaves_after(rt, Order::Random)?;
    println!(rt; "random {leaves}")?;
    let leaves = leaves_after(rt, Order::Rising)?;
    println!(rt; "rising {leaves}")?;
    let leaves = leaves_after(rt, Order::RisingBeforeOne)?;
    println!(rt; "rising_before_one {leaves}")?;
    let leaves = leaves_after_removals(rt, Order::Random)?;
    println!(rt; "removed_random {leaves}")?;
    let leaves = leaves_after_removals(rt, Order::Rising)?;
    println!(rt; "removed_rising {leaves}")?;
    Ok(())
}
PROGRAM
cat > sqlite.py <<'PROGRAM'
# The same rows in sqlite3: `make PATH`, `commits PATH MODE RUN`, `reads PATH`, or `puts PATH MODE`. Microseconds.
import sqlite3, sys, time
command, path = sys.argv[1], sys.argv[2]
ROWS, COMMITS, M = 100_000, 2_000, 2**64 - 1
def mixed(n):
    a = ((n ^ (n >> 30)) * 0xbf58476d1ce4e5b9) & M
    b = ((a ^ (a >> 27)) * 0x94d049bb133111eb) & M
    return b ^ (b >> 31)
def key(n):
    return mixed((n * 0x9e3779b97f4a7c15) & M).to_bytes(8, "big") + bytes(8)
def opened(mode):
    c = sqlite3.connect(path, isolation_level=None)
    c.execute("PRAGMA page_size=4096")
    c.execute("PRAGMA cache_size=65536")
    if c.execute(f"PRAGMA journal_mode={mode}").fetchone()[0] != mode:
        sys.exit("no such journal mode")
    c.execute("PRAGMA synchronous=FULL")
    return c
def put_all(c):
    c.execute("CREATE TABLE map (k BLOB PRIMARY KEY, v BLOB) WITHOUT ROWID")
    c.execute("ATTACH ':memory:' AS side")
    c.execute("CREATE TABLE side.source (n INTEGER PRIMARY KEY, k BLOB, v BLOB)")
    c.execute("BEGIN")
    c.executemany("INSERT INTO side.source VALUES (?, ?, ?)", ((n, key(n), bytes([n % 251]) * 64) for n in range(ROWS)))
    c.execute("COMMIT")
    start = time.perf_counter()
    for first in range(0, ROWS, 1000):
        c.execute("INSERT OR REPLACE INTO map SELECT k, v FROM side.source WHERE n >= ? AND n < ?", (first, first + 1000))
    return time.perf_counter() - start
def timed(work):
    start = time.perf_counter()
    result = work()
    return result, int((time.perf_counter() - start) * 1e6)
if command == "make":
    put_all(opened("delete"))
elif command == "puts":
    print(f"puts {sys.argv[3]}", int(put_all(opened(sys.argv[3])) * 1e6))
elif command == "commits":
    mode, run = sys.argv[3], int(sys.argv[4])
    c = opened(mode)
    changes = [(bytes([(i + run) % 251]) * 64, key(i * 7919 % ROWS)) for i in range(COMMITS)]
    c.execute("SELECT sum(length(v)) FROM map").fetchone()
    before = c.total_changes
    _, took = timed(lambda: [c.execute("UPDATE map SET v = ? WHERE k = ?", change) for change in changes])
    if c.total_changes - before != COMMITS:
        sys.exit("a row was not changed")
    c.close()
    print(f"commits {mode}", took)
else:
    c = opened("delete")
    c.execute("ATTACH ':memory:' AS side")
    c.execute("CREATE TABLE side.wanted (k BLOB)")
    wanted = [(key(i * 7919 % ROWS),) for i in range(ROWS)]
    c.executemany("INSERT INTO side.wanted VALUES (?)", wanted)
    scan = lambda: c.execute("SELECT sum(length(k) + length(v)) FROM map").fetchone()[0]
    scan()
    found, took = timed(lambda: c.execute("SELECT sum(length(map.v)) FROM side.wanted CROSS JOIN map ON map.k = wanted.k").fetchone()[0])
    print("gets all", took)
    each, took = timed(lambda: sum(len(c.execute("SELECT v FROM map WHERE k = ?", k).fetchone()[0]) for k in wanted))
    print("gets each", took)
    bytes_, took = timed(scan)
    if found != each or found != 64 * ROWS or bytes_ != 80 * ROWS:
        sys.exit("a row was read otherwise")
    print("scan all", took)
PROGRAM
rm -f s.db j.db ./*.lite*
(cd crates/store_bench && rt run -- make "$work/s.db" > build.log 2>&1) || { cat crates/store_bench/build.log; exit 1; }
bench=crates/store_bench/out/store_bench
$bench journal j.db
$bench counts | python3 -c '
import sys
for line in sys.stdin:
    name, *numbers = line.split()
    if name == "commits":
        commits, pages, sectors, syncs = map(int, numbers)
        which = "a commit" if commits == 1 else f"{commits:,} commits with a journal, each"
        print(f"{which} of one changed row: {pages / commits:.2f} pages, {sectors / commits:.2f} single sectors, {syncs / commits:.2f} syncs")
    else:
        leaves = int(numbers[0])
        order = name.replace("_", " ")
        rows = 10_000 if name.startswith("removed") else 100_000
        print(f"{rows:,} rows of 84 bytes each, 1,000 a commit, {order}: {leaves} leaves, {rows * 84 / (leaves * 4092):.1%} full")
'
for mode in delete truncate persist wal; do
  python3 sqlite.py make "$mode.lite"
done
for run in $(seq "$rounds"); do
  $bench commits s.db "$run"
  $bench commits j.db "$run"
  for mode in delete truncate persist wal; do
    python3 sqlite.py commits "$mode.lite" "$mode" "$run"
  done
  $bench reads s.db
  $bench reads j.db
  python3 sqlite.py reads delete.lite
  rm -f new.db new.lite*
  $bench puts new.db
  python3 sqlite.py puts new.lite delete
  rm -f new.lite*
  python3 sqlite.py puts new.lite wal
done | tee times
python3 - times <<'PROGRAM'
import statistics, sys
times = {}
for line in open(sys.argv[1]):
    work, who, micros = line.split()
    times.setdefault(work, {}).setdefault(who, []).append(int(micros) / 1e6)
COUNTS = {"commits": 2_000, "gets": 100_000, "scan": 100_000, "puts": 100_000}
for work, all_ in times.items():
    ours = statistics.median(all_.pop("guarddb"))
    print(f"{work}: Guarddb {ours:.4f} s, {COUNTS[work] / ours:.0f} a second")
    if "journal" in all_:
        other = statistics.median(all_.pop("journal"))
        print(f"{work}: with a journal {other:.4f} s, {COUNTS[work] / other:.0f} a second, ratio of the times {other / ours:.2f}")
    for who, others in all_.items():
        other = statistics.median(others)
        print(f"{work}: beside sqlite3, {who}: {other:.4f} s, {COUNTS[work] / other:.0f} a second, ratio of the times {ours / other:.2f}")
PROGRAM
