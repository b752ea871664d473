#!/usr/bin/env bash
# Viewing 1,000,000 rows in place and reading one column of each, beside the same loop in Rust (rustc -O) over
# the same bytes. Prints a line for each of ROUNDS rounds (15 where it is not given), and then the medians
# with their ratio.
#   benchmarks/row_view.sh [WORK [ROUNDS]]
# TOP names the repository whose crates are measured, where the script does not stand in it.
set -euo pipefail
top="${TOP:-$(dirname "$(dirname "$(readlink -f "$0")")")}"
work="${1:-$(mktemp -d /var/tmp/guarddb-row-view.XXXX)}"
rounds="${2:-15}"
mkdir -p "$work/crates/rows_bench/src"
cd "$work"
python3 "$top/benchmarks/scratch.py" "$top" rows_bench row_codec
cat > crates/rows_bench/src/main.rt <<'PROGRAM'
//! Views a million rows (k BIGINT PRIMARY KEY, x BIGINT, s TEXT, o TEXT) and adds up x.
#![tactic(auto)]

use anyhow::{Result, bail};
use row_codec::{encode_key, encode_row, view};
use sql_ast::columns::{Column, ColumnType, Columns};
use sql_ast::rows::record_size;
use sql_types::items::Items;
use sql_types::name::Name;
use sql_types::row::RowView;
use sql_types::text::Text;
use sql_types::value::{Value, ValueRef};
use std::alloc::Global;
use std::time::Instant;

const ROWS: i64 = 1_000_000;
const KEY: usize = 8;
const RECORD: usize = 31;

fn columns(alloc: Global) -> Result<Columns> {
    let mut columns = Items::new(alloc);
    let types = [
        ("k", ColumnType::BigInt),
        ("x", ColumnType::BigInt),
        ("s", ColumnType::Text),
        ("o", ColumnType::Text),
    ];
    for (name, column_type) in types {
        match Name::from_str(alloc, name)? {
            Some(name) => columns.push(Column {
                name,
                column_type,
                not_null: column_type == ColumnType::BigInt,
            })?,
            None => bail!("no name"),
        }
    }
    match Columns::new(columns, Items::from_vec(Vec::from_slice(alloc, &[0])?)) {
        Some(columns) => Ok(columns),
        None => bail!("no columns"),
    }
}

fn row_of(alloc: Global, k: i64) -> Result<Vec<Value>> {
    let mut row = Vec::new(alloc);
    row.push(Value::Int(k))?;
    row.push(Value::Int(k % 1000))?;
    row.push(Value::Text(Text::from_str(alloc, "abcdefghij")?))?;
    row.push(Value::Null)?;
    Ok(row)
}

fn records(alloc: Global, columns: &Columns) -> Result<Vec<u8>> {
    let mut bytes = Vec::new(alloc);
    for k in 0..ROWS {
        let row = row_of(alloc, k)?;
        if record_size(columns, &row) > 1200 {
            bail!("too long");
        }
        encode_key(columns, &row, &mut bytes)?;
        encode_row(columns, &row, &mut bytes)?;
    }
    Ok(bytes)
}

fn x_of(columns: &Columns, record: &[u8]) -> i64 {
    if record.len() < KEY {
        return -1;
    }
    let (key, value) = record.split_at(KEY);
    match view(columns, key, value) {
        Some(row) => match row.value(0, 1) {
            ValueRef::Int(x) => x,
            _ => -1,
        },
        None => -1,
    }
}

fn total_of(columns: &Columns, bytes: &[u8]) -> i64 {
    let mut total: i64 = 0;
    for record in bytes.chunks_exact(RECORD) {
        total = total.wrapping_add(x_of(columns, record));
    }
    total
}

fn main(rt: HostRuntime) -> Result<()> {
    let columns = columns(rt.alloc())?;
    let bytes = records(rt.alloc(), &columns)?;
    let start = Instant::now(&rt)?;
    let total = total_of(&columns, &bytes);
    let took = start.elapsed(&rt)?;
    let micros = took.as_micros();
    println!(rt; "guarddb {total} {micros} us")?;
    Ok(())
}
PROGRAM
cat > rows.rs <<'PROGRAM'
// The same bytes, checks and answer as Guarddb's `view`, in plain Rust.
use std::time::Instant;

#[derive(Clone, Copy)]
enum ColumnType { BigInt, Text, #[allow(dead_code)] Boolean }
struct Column { #[allow(dead_code)] name: String, column_type: ColumnType, not_null: bool }
struct Columns { columns: Vec<Column>, key: Vec<usize> }
#[derive(Clone, Copy)]
enum ValueRef<'a> { Null, Int(i64), #[allow(dead_code)] Text(&'a str), #[allow(dead_code)] Bool(bool) }
struct RowRef<'a> { cells: [ValueRef<'a>; 16], width: usize }

impl<'a> RowRef<'a> {
    fn value(&self, column: usize) -> ValueRef<'a> {
        if column >= self.width { ValueRef::Null } else { self.cells[column] }
    }
}

fn number_at(bytes: &[u8]) -> Option<(u64, &[u8])> {
    let (front, rest) = bytes.split_first_chunk::<8>()?;
    Some((u64::from_be_bytes(*front), rest))
}

fn key_cell_at(kind: ColumnType, bytes: &[u8]) -> Option<(ValueRef<'_>, &[u8])> {
    match kind {
        ColumnType::BigInt => {
            let (place, rest) = number_at(bytes)?;
            Some((ValueRef::Int((place ^ (1 << 63)) as i64), rest))
        }
        ColumnType::Text => {
            let end = bytes.iter().position(|b| *b == 0)?;
            Some((ValueRef::Text(std::str::from_utf8(&bytes[..end]).ok()?), &bytes[end + 1..]))
        }
        ColumnType::Boolean => match bytes.split_first()? {
            (0, rest) => Some((ValueRef::Bool(false), rest)),
            (1, rest) => Some((ValueRef::Bool(true), rest)),
            _ => None,
        },
    }
}

fn value_cell_at<'a>(column: &Column, bytes: &'a [u8]) -> Option<(ValueRef<'a>, &'a [u8])> {
    let (tag, rest) = bytes.split_first()?;
    match (*tag, column.column_type) {
        (0, _) if !column.not_null => Some((ValueRef::Null, rest)),
        (1, ColumnType::BigInt) => {
            let (bits, rest) = number_at(rest)?;
            Some((ValueRef::Int(bits as i64), rest))
        }
        (2, ColumnType::Text) => {
            let (front, rest) = rest.split_first_chunk::<2>()?;
            let length = u16::from_be_bytes(*front) as usize;
            if rest.len() < length { return None; }
            let (front, rest) = rest.split_at(length);
            if front.contains(&0) { return None; }
            Some((ValueRef::Text(std::str::from_utf8(front).ok()?), rest))
        }
        (3, ColumnType::Boolean) => Some((ValueRef::Bool(false), rest)),
        (4, ColumnType::Boolean) => Some((ValueRef::Bool(true), rest)),
        _ => None,
    }
}

fn view<'a>(columns: &Columns, key: &'a [u8], value: &'a [u8]) -> Option<RowRef<'a>> {
    if key.len() > 200 || value.len() > 1200 { return None; }
    let mut cells = [ValueRef::Null; 16];
    let mut rest = key;
    for place in &columns.key {
        let (value, behind) = key_cell_at(columns.columns[*place].column_type, rest)?;
        cells[*place] = value;
        rest = behind;
    }
    if !rest.is_empty() { return None; }
    let mut rest = value;
    for (place, column) in columns.columns.iter().enumerate() {
        if columns.key.contains(&place) { continue; }
        let (value, behind) = value_cell_at(column, rest)?;
        cells[place] = value;
        rest = behind;
    }
    if !rest.is_empty() { return None; }
    Some(RowRef { cells, width: columns.columns.len() })
}

fn total_of(columns: &Columns, bytes: &[u8]) -> i64 {
    let mut total = 0i64;
    for record in bytes.chunks_exact(31) {
        let (key, value) = record.split_at(8);
        total = total.wrapping_add(match view(columns, key, value) {
            Some(row) => match row.value(1) { ValueRef::Int(x) => x, _ => -1 },
            None => -1,
        });
    }
    total
}

fn main() {
    let column = |name: &str, column_type, not_null| Column { name: name.to_string(), column_type, not_null };
    let columns = Columns {
        columns: vec![column("k", ColumnType::BigInt, true), column("x", ColumnType::BigInt, true),
            column("s", ColumnType::Text, false), column("o", ColumnType::Text, false)],
        key: vec![0],
    };
    let mut bytes = Vec::new();
    for k in 0..1_000_000i64 {
        bytes.extend_from_slice(&((k as u64) ^ (1 << 63)).to_be_bytes());
        bytes.push(1);
        bytes.extend_from_slice(&(k % 1000).to_be_bytes());
        bytes.extend_from_slice(b"\x02\x00\x0aabcdefghij\x00");
    }
    let start = Instant::now();
    let total = total_of(&columns, std::hint::black_box(&bytes));
    println!("rust {} {} us", total, start.elapsed().as_micros());
}
PROGRAM
rustc -O -o rows rows.rs
(cd crates/rows_bench && rt run > build.log 2>&1) || { cat crates/rows_bench/build.log; exit 1; }
for _ in $(seq "$rounds"); do
  ./crates/rows_bench/out/rows_bench
  ./rows
done | tee rounds.txt
python3 - <<'PROGRAM'
import statistics
took, totals = {}, set()
for line in open("rounds.txt"):
    name, total, micros, _ = line.split()
    took.setdefault(name, []).append(int(micros))
    totals.add(total)
assert len(totals) == 1, totals
guarddb, rust = (statistics.median(took[name]) for name in ("guarddb", "rust"))
print(f"medians: guarddb {guarddb / 1000:.1f} ms, rust {rust / 1000:.1f} ms, ratio {guarddb / rust:.2f}")
PROGRAM
