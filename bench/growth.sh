#!/bin/sh
# Prints how the program's time and memory grow: over scripts of 4,000 and 40,000 lines that never wait or wait behind each
# request, of one client and of 64; over one fill of 1 MiB and one of 16 MiB; over 16 fills of 16 MiB; and over 16 disks of
# 16 media each. And how 20,000 mixed requests compare with a C program that makes the same reads and writes of whole blocks
# and prints the same lines. A time is the best of five runs where it is under a second, and the memory is the peak of one
# run more. Ends with 1 where ten times the lines take more than 12 times the time, 16 times the bytes more than 20 times,
# the fills 1 GiB or more, or the mixed requests more than one and a half times what the C program takes.
set -eu

top=$(cd "$(dirname "$0")/.." && pwd)
scratch=$(mktemp -d)
trap 'rm -rf "$scratch"' EXIT

# Other words are refused; this run is here to build the program.
"$top/diskio" > "$scratch/log" || true
diskio=$(find "$top/crates/diskio/out" -type f -name diskio -perm -u+x | head -n 1)

cat > "$scratch/replay.c" <<'PROGRAM'
// Makes the commands of a list on an image, and then prints a text: the image, the list, and the text are its words.
#include <fcntl.h>
#include <stdint.h>
#include <stdio.h>
#include <stdlib.h>
#include <sys/stat.h>
#include <unistd.h>

struct command {
    uint32_t writes, block, count;
};

static void *whole(const char *name, size_t *length) {
    struct stat about;
    int file = open(name, O_RDONLY);
    if (file < 0 || fstat(file, &about) != 0) exit(2);
    char *bytes = malloc(about.st_size + 1);
    if (!bytes || read(file, bytes, about.st_size) != about.st_size) exit(2);
    close(file);
    *length = about.st_size;
    return bytes;
}

int main(int count, char **words) {
    static char buffer[64 * 512];
    size_t list_bytes, text_bytes;
    struct command *list = whole(words[2], &list_bytes);
    char *text = whole(words[3], &text_bytes);
    int image = open(words[1], O_RDWR);
    for (size_t i = 0; i < list_bytes / sizeof *list; i++) {
        size_t length = (size_t)list[i].count * 512;
        off_t at = (off_t)list[i].block * 512;
        ssize_t moved = list[i].writes ? pwrite(image, buffer, length, at) : pread(image, buffer, length, at);
        if (moved != (ssize_t)length) return 2;
    }
    if (fsync(image) != 0) return 2;
    fwrite(text, 1, text_bytes, stdout);
    return count == 4 ? 0 : 2;
}
PROGRAM
cc -O2 -o "$scratch/replay" "$scratch/replay.c"

cat > "$scratch/driver.py" <<'DRIVER'
import os
import random
import struct
import subprocess
import sys
import time

DISKIO, REPLAY = sys.argv[1:]
MIB = 1 << 20
# The shell runs the words as its one child and then becomes this program, so that nothing else counts.
PEAK = "import resource; print(resource.getrusage(resource.RUSAGE_CHILDREN).ru_maxrss)"
failed = []


def lines_script(lines, clients, waits):
    text = ["disk a.img 512 1"]
    for client in range(clients):
        text.append("client")
        for line in range(lines // clients):
            at = (client * 7919 + line * 1021) % (MIB - 8)
            request = f"read {at} 8" if line % 4 >= 2 else f"write {at} {line:016x}"
            text.append("wait" if waits and line % 2 else request)
    return "\n".join(text) + "\n", {"a.img": MIB}


def fill_script(mebibytes, fills):
    text = "disk a.img 512 1\nclient\n" + f"fill 0 {mebibytes * MIB} 5a\n" * fills
    return text, {"a.img": 16 * MIB}


def disks_script():
    text, images = [], {}
    for disk in range(16):
        text.append(f"disk d{disk} 512 1 cached")
        images[f"d{disk}"] = MIB
        for spare in range(15):
            text.append(f"spare d{disk}s{spare}")
            images[f"d{disk}s{spare}"] = MIB
        text.append("client")
        for medium in range(1, 17):
            text += [f"fill 300 4000 {medium:02x} @{medium}", f"read 100 5000 @{medium}", "flush", "wait", "eject", "insert"]
    return "\n".join(text) + "\n", images


def mixed_script():
    choose = random.Random(7)
    text = ["disk a.img 512 1", "client"]
    for request in range(20_000):
        length = choose.randrange(1, 4097)
        at = choose.randrange(0, 8 * MIB - length)
        text.append(f"read {at} {length}" if choose.random() < 0.5 else f"fill {at} {length} {choose.randrange(256):02x}")
        if request % 16 == 15:
            text.append("wait")
    return "\n".join(text) + "\n", {"a.img": 8 * MIB}


def fresh_images(images):
    for name, length in images.items():
        with open(name, "wb") as image:
            image.write(bytes(length))


def seconds(words, images):
    times = []
    while len(times) < 5 and (not times or times[0] < 1):
        fresh_images(images)
        with open("script") as script, open("report", "w") as report:
            start = time.perf_counter()
            subprocess.run(words, stdin=script, stdout=report, check=True)
            times.append(time.perf_counter() - start)
    return min(times)


def peak(words, images):
    fresh_images(images)
    shell = f'"$@" < script > other; exec {sys.executable} -c "{PEAK}"'
    return int(subprocess.check_output(["sh", "-c", shell, "sh", *words])) / 1024


def show(name, case, most_mebibytes=1 << 30):
    script, images = case
    with open("script", "w") as out:
        out.write(script)
    words = [DISKIO, "plain"]
    took, memory = seconds(words, images), peak(words, images)
    print(f"{name}: {took * 1000:.1f} ms, at most {memory:.1f} MiB of memory", flush=True)
    if memory >= most_mebibytes:
        failed.append(f"{name}: memory")
    return took


def compare(name, small, large, most):
    print(f"{name}: {large / small:.1f} times the time, of at most {most}", flush=True)
    if large / small > most:
        failed.append(name)


def replay():
    commands = []
    with open("report") as report:
        for line in report:
            words = line.split()
            if len(words) > 3 and words[1] in ("fetch", "store", "put", "get"):
                count = int(words[4]) if len(words) > 4 else 1
                commands.append(struct.pack("<III", words[1] in ("store", "put"), int(words[3]), count))
    with open("commands", "wb") as out:
        out.write(b"".join(commands))
    os.rename("report", "text")
    took = seconds([REPLAY, "a.img", "commands", "text"], {"a.img": 8 * MIB})
    print(f"the same {len(commands):,} commands and lines in C: {took * 1000:.1f} ms", flush=True)
    return took


try:
    os.nice(-15)  # other work on the machine counts less
except PermissionError:
    pass
with open("/proc/cpuinfo") as about:
    model = [line.split(": ", 1)[1].strip() for line in about if line.startswith("model name")]
print(f"machine: {model[0] if model else 'unknown'}, {os.cpu_count()} processors, load {os.getloadavg()[0]:.1f}")
for clients in (1, 64):
    for waits in (False, True):
        name = f"{clients} client{'s' if clients > 1 else ''} that {'wait behind each request' if waits else 'never wait'}"
        small = show(f"{name}, 4,000 lines", lines_script(4_000, clients, waits))
        compare(name, small, show(f"{name}, 40,000 lines", lines_script(40_000, clients, waits)), 12)
small = show("a fill of 1 MiB", fill_script(1, 1))
compare("16 times the bytes", small, show("a fill of 16 MiB", fill_script(16, 1)), 20)
show("16 fills of 16 MiB", fill_script(16, 16), 1024)
show("16 disks of 16 media each", disks_script())
took = show("20,000 mixed requests", mixed_script())
compare("as the C program", replay(), took, 1.5)
for name in failed:
    print(f"{name}: too much")
sys.exit(1 if failed else 0)
DRIVER
mkdir "$scratch/run"
cd "$scratch/run"
python3 "$scratch/driver.py" "$diskio" "$scratch/replay"
