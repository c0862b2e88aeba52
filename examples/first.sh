#!/usr/bin/env bash
# Writes four bytes across a block border of a fresh image, reads them back, and shows the report and the bytes. Where the program is not
# built yet, its sources run first without a proof.
set -eu
top=$(cd "$(dirname "${BASH_SOURCE[0]}")/.." && pwd)
folder=$(mktemp -d)
trap 'rm -rf "$folder"' EXIT
cd "$folder"
head -c 1024 /dev/zero > a.img
printf '%s\n' 'disk a.img 512 1' 'client' 'write 510 aabbccdd' 'wait' 'read 508 8' > script.txt
if [ -z "$(find "$top/crates/diskio/out" -type f -name diskio -perm -u+x 2>/dev/null | head -n 1)" ]; then
  echo 'first.sh: the program is not built yet: this is what its sources do, without a proof' >&2
  # rt try runs in a folder of its own, so the image has its whole path there.
  sed "s|a.img|$folder/a.img|" script.txt > try.txt
  (cd "$top/crates/diskio" && rt try -- plain < "$folder/try.txt" 2>/dev/null || true) |
    sed "s|$folder/||; /^checked: /d; /^races: /d; /^run=/d"
  head -c 1024 /dev/zero > a.img
  echo 'first.sh: and now the proved program' >&2
fi
"$top/diskio" plain < script.txt
echo "bytes 508 to 515 of a.img: $(od -An -tx1 -j508 -N8 a.img | tr -d ' \n')"
