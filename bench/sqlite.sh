#!/bin/sh
# Not part of any check. Prints what inserts, deletes and questions cost in replay, beside SQLite in memory with triggers.
# Wants rustc and sqlite3. Usage: bench/sqlite.sh [REPLAY]
set -eu
cd "$(dirname "$0")/.."
replay=${1:-crates/replay/out/replay}
[ $# -gt 0 ] || (cd crates/replay && rt run -- data/day.bin >/dev/null)
mkdir -p target/bench
rustc -O --edition 2021 bench/warehouse.rs -o target/bench/warehouse
target/bench/warehouse "$replay" sqlite3 target/bench
