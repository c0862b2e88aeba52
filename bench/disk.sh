#!/bin/sh
# Prints what many outstanding requests cost: 10,000 and 100,000 requests of four bytes that are all accepted before the
# first step, then stepped and collected; and the cancel of one of two views among 10,000 outstanding requests. A time is
# the best of three runs. Ends with 1 where ten times the requests take more than twelve times the time. No script has so
# many outstanding requests, so a program that is only timed stands here; it is proved and built in a scratch folder.
set -eu

top=$(cd "$(dirname "$0")/.." && pwd)
scratch=$(mktemp -d)
trap 'rm -rf "$scratch"' EXIT

program=$scratch/crates/disk_bench
mkdir -p "$program/src"
below='efi_status byte_lists event_cell disk_split index_links block_gate medium drive history token_table subtask_queue history_laws disk_core'
for crate in $below; do
    cp -r "$top/crates/$crate" "$scratch/crates/"
    grep "^$crate:" "$top/crates.txt" >> "$scratch/crates.txt"
done
echo 'disk_bench: disk_core drive block_gate history medium efi_status token_table event_cell' >> "$scratch/crates.txt"
cat > "$program/src/main.rt" <<'PROGRAM'
#![tactic(auto)]
ghost use Rattle.std.specs.Prelude.{ℕ, ◌<◌};

use disk_core::{Ask, Disk, Step, Stored};
use drive::Drive;
use history::View;
use medium::MemMedium;
use std::alloc::{AllocError, Global};
use std::time::Instant;
use std::{env, io};

const BYTES: u64 = 1 << 20;

// One half of the medium.
fn half(second: bool) -> View {
    View {
        start: if second { BYTES / 2 } else { 0 },
        length: BYTES / 2,
        media_id: 1,
        index: 0,
    }
}

// A disk of so many blocks of zeros with two buffer sets. The error is want of memory.
fn new_disk(alloc: Global, blocks: u16) -> Result<Disk<MemMedium>, AllocError>
    requires { 0 < blocks }
{
    let bytes = vec![in alloc; 0; usize::from(blocks) * 512]?;
    let mut media = Vec::new(alloc);
    media.push(MemMedium::make(alloc, bytes, 512)?)?;
    match Disk::make(alloc, Drive::make(media, false, false, 1), 2) {
        Ok(disk) => Ok(disk),
        Err(_) => Err(AllocError),
    }
}

// Accepts a read or a write of four bytes in one of the halves. The error is want of memory.
fn accept(alloc: Global, disk: &mut Disk<MemMedium>, number: u32) -> Result<(), AllocError> {
    let view = half(number % 2 == 1);
    let at = u64::from(number) * 1_021 % (BYTES / 2 - 4);
    let buffer = vec![in alloc; 9; 4]?;
    let ask = if number % 4 < 2 {
        Ask::Write { at, buffer }
    } else {
        Ask::Read { at, buffer }
    };
    match disk.submit(1, &view, 1, ask) {
        Ok(_) => Ok(()),
        Err(_) => Err(AllocError),
    }
}

fn accept_all(alloc: Global, disk: &mut Disk<MemMedium>, count: u32) -> Result<(), AllocError> {
    for number in 0..count {
        accept(alloc, disk, number)?;
    }
    Ok(())
}

// One step, and the store of a lent work. False where no request is outstanding.
fn step(disk: &mut Disk<MemMedium>) -> bool {
    match disk.step() {
        Step::Did | Step::Idle => true,
        Step::Drained => false,
        Step::Lent(work) => {
            let mut work = work;
            work.merge();
            match disk.store(work) {
                Stored::Did | Stored::Stale => true,
                Stored::Foreign(work) | Stored::Strange(work, _, _, _) => {
                    work.discard();
                    false
                }
            }
        }
    }
}

fn drain(disk: &mut Disk<MemMedium>, most: u32) {
    for _ in 0..most {
        if !step(disk) {
            return;
        }
    }
}

// Hands the requests back, and answers how many did before the first that has not ended.
fn collect_all(disk: &mut Disk<MemMedium>, count: u32) -> u32 {
    for number in 0..count {
        if disk.collect(1, u64::from(number)).is_err() {
            return number;
        }
    }
    count
}

// With a word, the cancel of one view among 10,000 requests; else the life of so many requests as there are words.
fn main(rt: HostRuntime) -> io::Result<()> {
    let alloc = rt.alloc();
    let words = env::args(&rt)?.count();
    let count = if words > 2 { 100_000 } else { 10_000 };
    let mut disk = new_disk(alloc, 2_048)?;
    let start = Instant::now(&rt)?;
    accept_all(alloc, &mut disk, count)?;
    if words == 2 {
        let start = Instant::now(&rt)?;
        let ended = disk.cancel(1, &half(true));
        let time = start.elapsed(&rt)?.as_nanos();
        return println!(rt; "{time} {ended}");
    }
    drain(&mut disk, 2 * count + 1);
    let ended = collect_all(&mut disk, count);
    let time = start.elapsed(&rt)?.as_nanos();
    println!(rt; "{time} {ended}")
}
PROGRAM
if ! (cd "$program" && rt run) > "$scratch/log" 2>&1; then
    cat "$scratch/log" >&2
    exit 1
fi
cat > "$scratch/driver.py" <<'DRIVER'
import subprocess
import sys

BENCH = sys.argv[1]


def best(words, wanted):
    times = []
    for _ in range(3):
        nanoseconds, ended = subprocess.check_output([BENCH, *words], text=True).split()
        if int(ended) != wanted:
            sys.exit(f"{ended} requests ended, and not {wanted}")
        times.append(int(nanoseconds) / 1e6)
    return min(times)


few = best([], 10_000)
many = best(["all", "of", "them"], 100_000)
print(f"10,000 outstanding requests: {few:.1f} ms")
print(f"100,000 outstanding requests: {many:.1f} ms, {many / few:.1f} times the time")
print(f"a cancel of 5,000 among 10,000 outstanding requests: {best(['cancel'], 5_000):.2f} ms")
print("load:", open("/proc/loadavg").read().split()[0])
sys.exit(0 if many <= 12 * few else 1)
DRIVER
python3 "$scratch/driver.py" "$program/out/disk_bench"
