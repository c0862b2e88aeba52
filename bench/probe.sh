#!/bin/sh
# Prints how long the partition tables of two images take to be read and written, start included: one of two partitions, and
# one of 8,192 partitions of one block each. A time is the best of five runs. Ends with 1 where the large table takes 50 ms or
# more, or where a table is another one than the image was made with.
set -eu

top=$(cd "$(dirname "$0")/.." && pwd)
scratch=$(mktemp -d)
trap 'rm -rf "$scratch"' EXIT

# Words in no row are refused; this run is here to build the program.
"$top/diskio" > "$scratch/log" || true
diskio=$(find "$top/crates/diskio/out" -type f -name diskio -perm -u+x | head -n 1)

cat > "$scratch/driver.py" <<'DRIVER'
import struct
import subprocess
import sys
import time
import uuid
import zlib

DISKIO = sys.argv[1]
BLOCK = 512
TYPE = uuid.UUID("0fc63daf-8483-4772-8e79-3d69d8477de4")
DISK = uuid.UUID("00112233-4455-6677-8899-aabbccddeeff")


# The unique GUID of partition i, from 1.
def unique(i):
    return uuid.UUID(int=i)


def entry(i, first, blocks):
    return struct.pack("<16s16sQQQ72s", TYPE.bytes_le, unique(i).bytes_le, first, first + blocks - 1, 0, b"")


# A GPT header as UEFI 2.10, 5.3.2, has it: the CRC32 of its 92 bytes is taken with its own field as zero.
def header(own, alternate, usable, array_at, entries, array):
    def fields(crc):
        return struct.pack(
            "<8sIIIIQQQQ16sQIII",
            b"EFI PART", 0x10000, 92, crc, 0, own, alternate, *usable, DISK.bytes_le, array_at, entries, 128, zlib.crc32(array),
        )

    return fields(zlib.crc32(fields(0)))


# An image with a good primary and a good backup table of these partitions, each a first block and a number of blocks.
def write_image(name, blocks, partitions, entries):
    array = b"".join(entry(i, *place) for i, place in enumerate(partitions, 1)).ljust(entries * 128, b"\0")
    array_blocks = len(array) // BLOCK
    last = blocks - 1
    usable = (2 + array_blocks, last - 1 - array_blocks)
    record = bytes([0, 0, 2, 0, 0xEE, 0, 0, 0]) + struct.pack("<II", 1, last)
    with open(name, "wb") as image:
        image.truncate(blocks * BLOCK)
        image.seek(446)
        image.write(record.ljust(64, b"\0") + b"\x55\xaa")
        image.write(header(1, last, usable, 2, entries, array).ljust(BLOCK, b"\0") + array)
        image.seek((last - array_blocks) * BLOCK)
        image.write(array + header(last, 1, usable, last - array_blocks, entries, array))


def table(partitions):
    lines = ["table gpt-primary"]
    for i, (first, blocks) in enumerate(partitions, 1):
        lines.append(f"child {i} first {first} blocks {blocks} type {TYPE} id {unique(i)} attributes 0")
    return "\n".join(lines) + "\n"


def run(name, expected):
    start = time.perf_counter()
    written = subprocess.check_output([DISKIO, "probe", name, str(BLOCK)], text=True)
    seconds = time.perf_counter() - start
    if written != expected:
        sys.exit(f"another table:\n{written[:1000]}")
    return seconds


def show(title, name, blocks, partitions, entries):
    write_image(name, blocks, partitions, entries)
    expected = table(partitions)
    seconds = min(run(name, expected) for _ in range(5))
    print(f"{title}: {seconds * 1000:.1f} ms")
    return seconds


show("two partitions", "small.img", 4096, [(2048, 1024), (3072, 900)], 128)
seconds = show("8,192 partitions", "large.img", 16384, [(3000 + i, 1) for i in range(8192)], 8192)
sys.exit(seconds >= 0.05)
DRIVER
cd "$scratch" && python3 driver.py "$diskio"
