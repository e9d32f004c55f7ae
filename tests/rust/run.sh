#!/usr/bin/env bash
# The built library against document 01 in plain Rust (docs/src), power cuts on the plans that it leaves, and the library
# against the plain Rust that its speed is measured beside (docs/src/fast):
#     run.sh [CALLS [BOARDS [SEED]]]    so many calls compared, so many boards after cuts; a soak is the same with more.
# On boards with the published block, which take longer, a tenth of the calls and a fifteenth of the cuts.
set -euo pipefail
cd "$(dirname "$0")/../.."
calls=${1:-1000000} boards=${2:-300000} seed=${3:-1}

mkdir -p target/rust
tests/archives.sh cabinet hosts probes
tests/lister/build.sh

flags=(--edition 2021 -O -C overflow-checks=on -D warnings --out-dir target/rust -L target/rust -L native=target/staticlib)
rustc "${flags[@]}" --crate-type rlib --crate-name document docs/src/lib.rs
rustc "${flags[@]}" --crate-type rlib -l static=cabinet -l static=hosts tests/rust/support.rs
rustc "${flags[@]}" --crate-type rlib -l static=probes --extern support tests/rust/probes.rs
rustc "${flags[@]}" --extern document --extern support --extern probes tests/rust/differential.rs
rustc "${flags[@]}" --extern support --extern probes tests/rust/cuts.rs
rustc "${flags[@]}" --crate-type rlib --crate-name fast docs/src/fast/lib.rs
rustc "${flags[@]}" --extern support --extern probes --extern fast tests/rust/same_plans.rs
# Not run here, but by bench/run.
rustc "${flags[@]}" --extern support --extern fast bench/planning.rs
rustc "${flags[@]}" --extern support --extern probes --extern fast bench/published.rs

target/rust/differential "$seed" "$calls"
target/rust/differential published "$seed" "$((calls / 10))"
target/rust/cuts "$seed" "$boards"
target/rust/cuts published "$seed" "$((boards / 15))"
target/rust/same_plans "$seed" 50000
target/rust/same_plans published "$seed" 5000

# Some of the calls again, each read of the library's watched.
watched() {
    valgrind -q --error-exitcode=1 target/rust/differential "$@" >target/rust/valgrind.log 2>&1 ||
        { cat target/rust/valgrind.log; exit 1; }
    echo "$(tail -1 target/rust/valgrind.log), under valgrind: no read past what was lent"
}
watched "$seed" 20000 1000
watched published "$seed" 3000 1000
