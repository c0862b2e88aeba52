#!/bin/sh
# Prints how long the largest generated script takes to run, 64 clients with 1,562 lines each, and the memory that it takes.
# The time is the best of five runs, and the memory is the peak of one run more. Ends with 1 where it takes three seconds or
# more, or more than 1 GiB, or where the summary is another one. The summary is that of a simulation of the schedule.
set -eu

top=$(cd "$(dirname "$0")/.." && pwd)
scratch=$(mktemp -d)
trap 'rm -rf "$scratch"' EXIT

# Words in no row are refused; this run is here to build the program.
"$top/diskio" > "$scratch/log" || true
diskio=$(find "$top/crates/diskio/out" -type f -name diskio -perm -u+x | head -n 1)

cat > "$scratch/driver.py" <<'DRIVER'
import subprocess
import sys
import time

WORDS = [sys.argv[1], "gen", "7", "64", "1562"]
# The shell runs the program as its one child and then becomes this one, so that nothing else counts.
PEAK = "import resource; print(resource.getrusage(resource.RUSAGE_CHILDREN).ru_maxrss)"
SUMMARY = """entries 492227
accepted 93760
refused 0
commands 304707
written 48072123
read 36129193
crc 5d1fbe51
"""


def run():
    start = time.perf_counter()
    written = subprocess.check_output(WORDS, text=True)
    seconds = time.perf_counter() - start
    if written != SUMMARY:
        sys.exit(f"another summary:\n{written}")
    return seconds


def peak():
    shell = f'"$@" > summary; exec {sys.executable} -c "{PEAK}"'
    return int(subprocess.check_output(["sh", "-c", shell, "sh", *WORDS]))


seconds, kibibytes = min(run() for _ in range(5)), peak()
print(f"99,968 lines of 64 clients: {seconds * 1000:.0f} ms, at most {kibibytes / 1024:.1f} MiB of memory")
sys.exit(seconds >= 3 or kibibytes > 1 << 20)
DRIVER
cd "$scratch" && python3 driver.py "$diskio"
