#!/usr/bin/env bash
# The tests of the C interface: builds the library's archives and the programs of this folder, and runs them.
set -euo pipefail
cd "$(dirname "$0")/../.."

flags=(-Wall -Wextra -Werror -O2 -Iinclude)
mkdir -p target/c
tests/archives.sh cabinet hosts probes
images=target/staticlib/libcabinet.a
words=target/staticlib/libhosts.a
published=target/staticlib/libprobes.a
gcc -std=c11 "${flags[@]}" tests/c/reading.c "$images" -o target/c/reading
gcc -std=c11 "${flags[@]}" tests/c/vectors.c "$images" -o target/c/vectors
gcc -std=c11 "${flags[@]}" tests/c/words.c "$words" -o target/c/words
gcc -std=c11 "${flags[@]}" tests/c/changing.c "$words" -o target/c/changing
gcc -std=c11 "${flags[@]}" tests/c/published.c "$published" -o target/c/published
gcc -std=c11 "${flags[@]}" tests/c/published_examples.c "$published" -o target/c/published_examples
gcc -std=c11 "${flags[@]}" tests/c/examples.c "$words" -o target/c/examples
gcc -std=c11 "${flags[@]}" tests/c/sheet.c "$words" -o target/c/sheet
g++ -std=c++11 -pedantic "${flags[@]}" tests/c/header.cpp "$images" "$words" -o target/c/header

target/c/header
target/c/reading
target/c/changing
target/c/published
target/c/published_examples
target/c/examples | diff - tests/c/examples.txt
echo "examples: E1 to E12 and a cut plan as examples.txt has them"
python3 tests/c/guide.py
python3 tests/c/sheet.py
python3 tests/c/vectors.py &
vectors=$!
python3 tests/c/words.py
wait "$vectors"
