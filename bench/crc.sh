#!/bin/sh
# Prints how many bytes a second `crc_table::crc32` and Python's `zlib.crc32` take in: the best of five runs of each over
# the same 64 MiB. The program that is timed stands here, since the repository has no other use for it; it is proved and
# built in a scratch folder.
set -eu

top=$(cd "$(dirname "$0")/.." && pwd)
scratch=$(mktemp -d)
trap 'rm -rf "$scratch"' EXIT
program=$scratch/crates/crc_bench
mkdir -p "$program/src"
cp -r "$top/crates/crc_table" "$scratch/crates/"
printf 'crc_table:\ncrc_bench: crc_table\n' > "$scratch/crates.txt"
cat > "$program/src/main.rt" <<'PROGRAM'
#![tactic(auto)]

use std::io;
use std::time::Instant;

use crc_table::crc32;

fn main(rt: HostRuntime) -> io::Result<()> {
    let mut bytes = Vec::new(rt.alloc());
    for i in 0u32..64 << 20 {
        bytes.push((i % 251) as u8)?;
    }
    for _ in 0..5 {
        let start = Instant::now(&rt)?;
        let crc = crc32(bytes.as_slice());
        println!(rt; "{} {crc}", start.elapsed(&rt)?.as_nanos())?;
    }
    Ok(())
}
PROGRAM
if ! (cd "$program" && rt run) > "$scratch/log" 2>&1; then
    cat "$scratch/log" >&2
    exit 1
fi
python3 - "$program/out/crc_bench" <<'DRIVER'
import subprocess
import sys
import time
import zlib

LENGTH = 64 << 20


def report(name, nanoseconds):
    print(f"{name}: {LENGTH * 1_000_000_000 // min(nanoseconds)} bytes a second")


runs = [line.split() for line in subprocess.check_output(sys.argv[1], text=True).splitlines()]
data = (bytes(range(251)) * (LENGTH // 251 + 1))[:LENGTH]
times = []
for _ in range(5):
    start = time.perf_counter_ns()
    want = zlib.crc32(data)
    times.append(time.perf_counter_ns() - start)
report("crc_table::crc32", [int(run[0]) for run in runs])
report("zlib.crc32", times)
if any(int(run[1]) != want for run in runs):
    sys.exit("the two differ")
DRIVER
