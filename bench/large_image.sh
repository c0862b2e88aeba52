#!/bin/sh
# Prints what a disk costs whose image is large: a sparse image of 4 GiB with a script of two requests, and one of 8 MiB
# with 20,000 requests. A time is the best of five runs where it is under a second, and the memory is the peak of one run
# more. Ends with 1 where the large image takes a second or more, or more than 64 MiB, or is sparse no more.
set -eu

top=$(cd "$(dirname "$0")/.." && pwd)
scratch=$(mktemp -d)
trap 'rm -rf "$scratch"' EXIT

# An empty script is refused; this run is here to build the program.
"$top/diskio" plain < /dev/null > "$scratch/log" || true
diskio=$(find "$top/crates/diskio/out" -type f -name diskio -perm -u+x | head -n 1)

cat > "$scratch/driver.py" <<'DRIVER'
import os
import subprocess
import sys
import time

DISKIO = sys.argv[1]
PEAK = "import resource; print(resource.getrusage(resource.RUSAGE_CHILDREN).ru_maxrss)"
failed = []


def fresh_image(length):
    with open("a.img", "wb") as image:
        image.truncate(length)


def run():
    with open("script") as script, open("report", "w") as report:
        start = time.perf_counter()
        subprocess.run([DISKIO, "plain"], stdin=script, stdout=report, check=True)
        return time.perf_counter() - start


def best():
    times = [run()]
    while len(times) < 5 and times[0] < 1:
        times.append(run())
    return min(times)


def peak():
    shell = f'"$@" < script > report; exec {sys.executable} -c "{PEAK}"'
    return int(subprocess.check_output(["sh", "-c", shell, "sh", DISKIO, "plain"]))


def show(name, length, lines):
    fresh_image(length)
    with open("script", "w") as script:
        script.write("\n".join(["disk a.img 512 1", "client", *lines]) + "\n")
    seconds, kibibytes = best(), peak()
    held = os.stat("a.img").st_blocks * 512
    print(f"{name}: {seconds * 1000:.1f} ms, at most {kibibytes / 1024:.1f} MiB of memory, the file holds {held:,} bytes")
    return seconds, kibibytes, held


def request(line, length):
    at = line * 1021 % (length - 8)
    return f"read {at} 8" if line % 2 else f"write {at} {line:016x}"


load = os.getloadavg()[0]
print(f"{os.cpu_count()} processors, load {load:.1f}")
LARGE = 4 << 30
seconds, kibibytes, held = show("4 GiB, two requests", LARGE, [f"write {LARGE - 600} aabbccdd", "wait", "read 4096 8"])
if seconds >= 1 or kibibytes > 64 << 10 or held > 1 << 20:
    failed.append("the large image")
SMALL = 8 << 20
show("8 MiB, 20,000 requests", SMALL, [request(line, SMALL) for line in range(20_000)])
for name in failed:
    print(f"{name} cost too much")
sys.exit(1 if failed else 0)
DRIVER
mkdir "$scratch/run"
cd "$scratch/run"
python3 "$scratch/driver.py" "$diskio"
