#!/usr/bin/env bash
# Runs the proved program and the independent implementation on the same random steps and compares what they write.
#     tests/random_compare.sh [COUNT [SEED]]        1,000,000 steps of seed 7 unless given
# Needs target/bin/program_main (made by `tools/build.sh program_main`) and cargo.
set -euo pipefail
cd "$(dirname "$0")/.."
count=${1:-1000000}
seed=${2:-7}
[ -x target/bin/program_main ] || tools/build.sh program_main
cargo build --release --offline --quiet --manifest-path rust/Cargo.toml --target-dir rust/target \
    --package steps --package reference
room=$(mktemp -d)
trap 'rm -rf "$room"' EXIT
rust/target/release/steps "$seed" "$count" > "$room/input"
rust/target/release/reference < "$room/input" > "$room/expected"
target/bin/program_main < "$room/input" > "$room/output"
cmp "$room/expected" "$room/output"
echo "$count random steps (seed $seed), $(stat -c %s "$room/output") bytes of answers: no difference"
