#!/usr/bin/env bash
# Sector writes beside 'dd' with oflag=dsync, and cached sector reads beside a C loop of 'pread', on the disk
# of the folder WORK (a new one in /var/tmp where it is not given). Prints a line for each of ROUNDS rounds
# (15 where it is not given), and then the medians with their ratios.
#   benchmarks/devices.sh [WORK [ROUNDS]]
set -euo pipefail
top="$(dirname "$(dirname "$(readlink -f "$0")")")"
work="${1:-$(mktemp -d /var/tmp/guarddb-devices.XXXX)}"
rounds="${2:-15}"
mkdir -p "$work/crates/devices_bench/src"
cd "$work"
python3 "$top/benchmarks/scratch.py" "$top" devices_bench sector_device
cat > crates/devices_bench/src/main.rt <<'PROGRAM'
//! Times the device over a file: `devices_bench writes PATH` or `devices_bench reads PATH`.
#![tactic(auto)]

use anyhow::{Result, bail};
use sector_device::{Device, FileDevice, SECTOR_SIZE};
use std::env;
use std::time::Instant;

const PAGES: u32 = 1250;

fn write_all<D: Device>(device: &mut D, count: u32) -> bool {
    let mut bytes = [7u8; SECTOR_SIZE];
    for i in 0..count {
        bytes[0] = (i % 251) as u8;
        let sector = i % 10_000;
        if sector >= device.sectors() || device.write(sector, &bytes).is_err() {
            return false;
        }
        if i % 8 == 7 && device.sync().is_err() {
            return false;
        }
    }
    true
}

fn read_all<D: Device>(device: &mut D, count: u32) -> Option<u64> {
    let mut bytes = [0u8; SECTOR_SIZE];
    let mut total = 0u64;
    for i in 0..count {
        let sector = i.wrapping_mul(7919) % 10_000;
        if sector >= device.sectors() || device.read(sector, &mut bytes).is_err() {
            return None;
        }
        total = total.wrapping_add(u64::from(bytes[0]));
    }
    Some(total)
}

fn main(rt: HostRuntime) -> Result<()> {
    let mut words = Vec::new(rt.alloc());
    for word in env::args(&rt)? {
        words.push(word)?;
    }
    if words.len() < 3 {
        bail!("usage: bench writes|reads PATH");
    }
    let path = words[2].as_str();
    if words[1].as_str() == "writes" || words[1].as_str() == "rewrites" {
        let mut device = if words[1].as_str() == "writes" {
            FileDevice::make(&rt, path, PAGES)?
        } else {
            FileDevice::open(&rt, path)?
        };
        let start = Instant::now(&rt)?;
        let done = write_all(&mut device, 10_000);
        let took = start.elapsed(&rt)?;
        let micros = took.as_micros();
        println!(rt; "writes {done} {micros} us")?;
    } else {
        let mut device = FileDevice::open(&rt, path)?;
        let warm = read_all(&mut device, 10_000);
        let start = Instant::now(&rt)?;
        let total = read_all(&mut device, 100_000);
        let took = start.elapsed(&rt)?;
        let micros = took.as_micros();
        println!(rt; "reads {warm:?} {total:?} {micros} us")?;
    }
    Ok(())
}
PROGRAM
cat > pread.c <<'PROGRAM'
#define _GNU_SOURCE
#include <stdio.h>
#include <stdint.h>
#include <fcntl.h>
#include <unistd.h>
#include <time.h>
static uint64_t run(int fd, uint32_t count) {
    unsigned char b[512]; uint64_t total = 0;
    for (uint32_t i = 0; i < count; i++) {
        uint32_t s = (i * 7919u) % 10000u;
        if (pread(fd, b, 512, (off_t)s * 512) != 512) return (uint64_t)-1;
        total += b[0];
    }
    return total;
}
int main(int argc, char **argv) {
    int fd = open(argv[1], O_RDWR); run(fd, 10000);
    struct timespec a, z; clock_gettime(CLOCK_MONOTONIC, &a);
    uint64_t t = run(fd, 100000);
    clock_gettime(CLOCK_MONOTONIC, &z);
    printf("pread %lu %ld us\n", t, (z.tv_sec-a.tv_sec)*1000000L + (z.tv_nsec-a.tv_nsec)/1000);
}
PROGRAM
cc -O2 -o pread pread.c
(cd crates/devices_bench && rt run -- writes "$work/first.db" >build.log 2>&1) || { cat crates/devices_bench/build.log; exit 1; }
bench=crates/devices_bench/out/devices_bench
for _ in $(seq "$rounds"); do
  rm -f w.db d.bin
  $bench writes w.db | sed 's/writes true/new_device/'
  dd if=/dev/zero of=d.bin bs=4096 count=1250 oflag=dsync 2>&1 | tail -1 | sed 's/.*copied, \([0-9.]*\) s.*/new_dd \1 s/'
  $bench rewrites w.db | sed 's/writes true/old_device/'
  dd if=/dev/zero of=d.bin bs=4096 count=1250 oflag=dsync conv=notrunc 2>&1 | tail -1 | sed 's/.*copied, \([0-9.]*\) s.*/old_dd \1 s/'
  $bench reads w.db | sed 's/.*) \([0-9]*\) us/reads \1 us/'
  ./pread w.db | sed 's/pread [0-9]* /pread /'
done | tee times
python3 - times <<'PROGRAM'
import statistics, sys
times = {}
for line in open(sys.argv[1]):
    name, value, unit = line.split()
    times.setdefault(name, []).append(float(value) * (1 if unit == "s" else 1e-6))
for ours, other in [("new_device", "new_dd"), ("old_device", "old_dd"), ("reads", "pread")]:
    a, b = statistics.median(times[ours]), statistics.median(times[other])
    print(f"{ours} {a:.4f} s, {other} {b:.4f} s, ratio {a / b:.2f}")
PROGRAM
