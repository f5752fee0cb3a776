#!/bin/sh
# Tests from outside: the programs that were built, against counts that know nothing of their code.
# Wants rustc. `rt run` proves what has not been proved yet and builds the programs: crates/NAME/out/NAME.
set -eu
cd "$(dirname "$0")/.."
folder=$(mktemp -d)
trap 'rm -rf "$folder"' EXIT
trap 'exit 1' HUP INT TERM
export TMPDIR="$folder"
build() {
    (cd "crates/$1" && rt run -- "data/$2") >"$folder/$1.log" 2>&1 || { cat "$folder/$1.log"; exit 1; }
}
build replay day.bin
build advise facts.bin
for program in days standard bad_files pairs; do
    rustc -O --edition 2021 -o "$folder/$program" "tests/$program.rs"
done
"$folder/days" crates/replay/out/replay
"$folder/standard" crates/replay/out/replay
"$folder/bad_files" crates/replay/out/replay crates/replay/data/day.bin
"$folder/pairs" crates/advise/out/advise
