#!/usr/bin/env bash
# Proves the lister and writes target/bin/lister. `rt run` also runs it, here on no bytes.
set -euo pipefail
cd "$(dirname "$0")/../.."

mkdir -p target
(cd crates/lister && rt run </dev/null) >target/lister.log 2>&1 || { cat target/lister.log; exit 1; }
install -D crates/lister/out/lister target/bin/lister
