#!/bin/sh
# Not part of any check. Prints how many groups a second put, take and roll go through, and how long a choice takes.
set -e
cd "$(dirname "$0")/.."
(cd crates/advise && rt run -- data/facts.bin >/dev/null)
(cd crates/bench_exports && rt lib >/dev/null)
mkdir -p target
rustc -O --edition 2021 bench/groups.rs -o target/bench_groups -L crates/bench_exports/out -l static=bench_exports
rustc -O --edition 2021 bench/choose.rs -o target/bench_choose
target/bench_groups
target/bench_choose crates/advise/out/advise target/bench.bin
