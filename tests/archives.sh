#!/usr/bin/env bash
# Proves and writes target/staticlib/libNAME.a for each NAME, unless it is there and no file of the crates is newer.
set -euo pipefail
cd "$(dirname "$0")/.."

mkdir -p target
for name in "$@"; do
    archive=target/staticlib/lib$name.a
    # rt's own files stand in out/.
    [ ! -e "$archive" ] || [ -n "$(find crates crates.txt -name out -prune -o -type f -newer "$archive" -print -quit)" ] || continue
    (cd "crates/$name" && rt lib) >target/archives.log 2>&1 || { cat target/archives.log; exit 1; }
    install -D -m 644 "crates/$name/out/lib$name.a" "$archive"
done
