#!/bin/sh
# Prints how long a large script takes to be read, and the memory that it takes: 100,000 lines for 64 clients on 16 disks
# with 256 images, a script of 4 MiB of line feeds, and 16 fills of 16 MiB each. The images are missing, so that a script
# is read whole and nothing else is done. Each time is the best of five runs, and the memory is the peak of one run more.
# Ends with 1 where one takes half a second or more, or more than 64 MiB.
set -eu

top=$(cd "$(dirname "$0")/.." && pwd)
scratch=$(mktemp -d)
trap 'rm -rf "$scratch"' EXIT

# Other words are refused; this run is here to build the program.
"$top/diskio" > "$scratch/log" || true
diskio=$(find "$top/crates/diskio/out" -type f -name diskio -perm -u+x | head -n 1)

cat > "$scratch/driver.py" <<'DRIVER'
import subprocess
import sys
import time

DISKIO = sys.argv[1]
# The shell runs the program as its one child and then becomes this one, so that nothing else counts.
PEAK = "import resource; print(resource.getrusage(resource.RUSAGE_CHILDREN).ru_maxrss)"


def many_lines():
    lines = []
    for disk in range(16):
        lines.append(f"disk d{disk} 512 16 cached physical 8")
        lines.extend(f"spare s{disk}x{spare}" for spare in range(15))
        for client in range(4):
            lines.append("client")
            lines.extend(["fill 0 2600 5a", "read 7 1 @2", "wait"] * 516)
    while len(lines) < 100000:
        lines.append("wait")
    return "\n".join(lines) + "\n"


def fills():
    return "disk a.img 512 1\nclient\nclient\n" + "fill 0 16777216 5a\n" * 16


def seconds(expected):
    times = []
    for _ in range(5):
        with open("script") as script:
            start = time.perf_counter()
            answer = subprocess.run([DISKIO, "plain"], stdin=script, stdout=subprocess.PIPE)
            times.append(time.perf_counter() - start)
        assert answer.stdout == expected, answer.stdout
    return min(times)


def peak():
    shell = f'"$@" < script > report; exec {sys.executable} -c "{PEAK}"'
    return int(subprocess.check_output(["sh", "-c", shell, "sh", DISKIO, "plain"]))


def passes(name, script, expected):
    with open("script", "w") as file:
        file.write(script)
    took, mebibytes = seconds(expected), peak() / 1024
    print(f"{name}, {len(script):,} bytes: {took * 1000:.1f} ms, at most {mebibytes:.1f} MiB of memory")
    return took < 0.5 and mebibytes <= 64


passed = [
    passes("100,000 lines", many_lines(), b"image d0\n"),
    passes("4 MiB of line feeds", "\n" * (4 << 20), b""),
    passes("16 fills of 16 MiB", fills(), b"image a.img\n"),
]
sys.exit(0 if all(passed) else 1)
DRIVER
cd "$scratch" && python3 driver.py "$diskio"
