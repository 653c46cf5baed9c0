#!/usr/bin/env bash
# Checks the proved stub from outside, as kernels in C and Rust call it. Run it after the gate (.ci/run).
#     tests/outside.sh
# Makes libsanirvoq.a and, for the benchmark, libbench_read.a in target/staticlib, or takes those of the folder
# SANIRVOQ_LIB; and the programs that it runs, in target/bin (tools/build.sh).
# A check prints 'ok NAME' or 'FAILED NAME'; what it wrote is in target/outside/NAME.log. None is left out: where a
# part of the repository, a program of the gate or a tool is missing, its checks fail.
# Needs rt, cargo with clippy and rustfmt (by rustup), and on Debian 12 the packages of all tests:
#     apt-get update && apt-get install -y $(cat tests/packages.txt)
# The last line is 'N passed, M failed'; exit status 1 unless M is 0.
set -uo pipefail
if [ -n "${SANIRVOQ_LIB:-}" ]; then
    SANIRVOQ_LIB=$(realpath -m -- "$SANIRVOQ_LIB")
    export SANIRVOQ_LIB
else
    unset SANIRVOQ_LIB
fi
# Programs are looked for in the workspace's own target folder.
unset CARGO_TARGET_DIR
cd "$(dirname "$0")/.." || exit 1
library=${SANIRVOQ_LIB:-target/staticlib}/libsanirvoq.a
logs=target/outside
passed=0
failed=0

# A check: its name and its command.
check() {
    local name=$1 start=$SECONDS
    shift
    if "$@" > "$logs/$name.log" 2>&1; then
        passed=$((passed + 1))
        echo "ok $name ($((SECONDS - start)) s)"
    else
        failed=$((failed + 1))
        echo "FAILED $name ($((SECONDS - start)) s), see $logs/$name.log"
    fi
}

# cargo COMMAND CRATE [WORDS...]
crate() {
    local command=$1 name=$2
    shift 2
    cargo "$command" --release --offline --manifest-path "rust/$name/Cargo.toml" "$@"
}

# tests_of CRATE [WORDS...]: its tests, none of them ignored. Optimizing at link time takes most of a test's build and
# tests nothing more.
tests_of() {
    CARGO_PROFILE_RELEASE_LTO=off crate test "$@" | tee "$logs/tests_of_$1.txt" &&
        ! grep -E '^test .* \.\.\. ignored' "$logs/tests_of_$1.txt"
}

# All crates of the workspace, with their tests and examples.
clippy() {
    cargo clippy --offline --manifest-path rust/Cargo.toml --workspace --all-targets -- -D warnings
}

rustfmt() {
    cargo fmt --manifest-path rust/Cargo.toml --all --check
}

rust_doc() {
    RUSTDOCFLAGS='-D warnings' cargo doc --offline --manifest-path rust/Cargo.toml --workspace --no-deps
}

# With no archive (an empty SANIRVOQ_LIB) the wrapper builds, documents and tests, its tests that call the stub say that
# they are ignored, and a program that calls the stub does not link.
without_archive() {
    local said=$logs/without_archive.txt words=(--offline --target-dir rust/target/without_archive --manifest-path)
    SANIRVOQ_LIB='' cargo build "${words[@]}" rust/sanirvoq/Cargo.toml &&
        SANIRVOQ_LIB='' cargo doc --no-deps "${words[@]}" rust/sanirvoq/Cargo.toml &&
        SANIRVOQ_LIB='' cargo test "${words[@]}" rust/sanirvoq/Cargo.toml | tee "$said" &&
        grep -qE '^test .* ignored, needs libsanirvoq.a$' "$said" &&
        grep -qE '^test result: ok. [1-9][0-9]* passed; 0 failed; 0 ignored' "$said" &&
        ! SANIRVOQ_LIB='' cargo build "${words[@]}" rust/compare/Cargo.toml --bin compare 2> "$said" &&
        grep -E 'undefined (symbol|reference).*sanirvoq_step_request' "$said"
}

c11() {
    gcc -std=c11 -Wall -Wextra -Wpedantic -Werror "$@"
}

under_valgrind() {
    valgrind --error-exitcode=9 --leak-check=full --errors-for-leak-kinds=definite "$@"
}

# The archives, and the programs that the checks of tools/ and of docs/ run.
library() {
    { [ -n "${SANIRVOQ_LIB:-}" ] || tools/build.sh sanirvoq bench_read; } && ls -l "$library" &&
        tools/build.sh program_main calls_main
}

# The header alone, as in a kernel with no C library: LANGUAGE STANDARD.
header() {
    gcc -x "$1" -std="$2" -ffreestanding -nostdinc -isystem "$(gcc -print-file-name=include)" -Wall -Wextra -Wpedantic \
        -Werror -fsyntax-only include/sanirvoq.h
}

# Its inline functions call the archive and nothing else.
header_alone() {
    gcc -x c -std=c11 -ffreestanding -O2 -fkeep-inline-functions -c include/sanirvoq.h -o "$logs/header.o" &&
        nm -u "$logs/header.o" | tee "$logs/header_alone.txt" &&
        grep -q ' U sanirvoq_step_' "$logs/header_alone.txt" &&
        ! grep -v ' U sanirvoq_' "$logs/header_alone.txt"
}

# A result that is dropped is an error with -Werror.
header_results() {
    printf '%s\n' '#include "sanirvoq.h"' 'void drop(struct sanirvoq_record *record, struct sanirvoq_lent lent);' \
        'void drop(struct sanirvoq_record *record, struct sanirvoq_lent lent) {' \
        '    sanirvoq_state(record, lent, 5, SANIRVOQ_STATE_READY);' '}' > "$logs/drop.c" &&
        ! c11 -Iinclude -c "$logs/drop.c" -o "$logs/drop.o" 2> "$logs/drop.txt" &&
        grep 'warn_unused_result\|Wunused-result' "$logs/drop.txt" &&
        sed -i 's/    sanirvoq_state/    (void)!sanirvoq_state/' "$logs/drop.c" &&
        c11 -Iinclude -c "$logs/drop.c" -o "$logs/drop.o"
}

# Every function of the header is called by tests/header_calls.c.
header_calls() {
    local name missing=0
    for name in $(grep -oE '\bsanirvoq_[a-z_]+\(' include/sanirvoq.h | sort -u); do
        grep -qF "$name" tests/header_calls.c || { echo "not called: $name"; missing=1; }
    done
    [ "$missing" -eq 0 ] &&
        c11 -O2 -Iinclude tests/header_calls.c "$library" -o "$logs/header_calls" &&
        under_valgrind "$logs/header_calls"
}

example_c() {
    c11 -O2 -Iinclude examples/kernel.c "$library" -o "$logs/kernel_c" &&
        "$logs/kernel_c" > "$logs/kernel_c.txt" &&
        diff examples/kernel.txt "$logs/kernel_c.txt"
}

images_c() {
    c11 -O2 -Iinclude tests/image_differences.c "$library" -o "$logs/images_c" && under_valgrind "$logs/images_c"
}

texts_c() {
    c11 -O2 -Iinclude tests/text_packets.c "$library" -o "$logs/texts_c" && under_valgrind "$logs/texts_c"
}

text_steps_c() {
    c11 -O2 -Iinclude tests/text_steps.c "$library" -o "$logs/text_steps_c" && under_valgrind "$logs/text_steps_c"
}

text_step_vectors() {
    c11 -O2 -Iinclude tests/text_step_run.c "$library" -o "$logs/text_step_run" &&
        python3 tests/text_step_vectors.py valgrind --quiet --error-exitcode=9 "$logs/text_step_run"
}

# The stored calls of patches through the archive.
patch_run() {
    c11 -O2 -Iinclude tests/patch_run.c "$library" -o "$logs/patch_run" &&
        python3 tests/patch_calls.py valgrind --quiet --error-exitcode=9 "$logs/patch_run"
}

conditions_c() {
    c11 -O2 -Iinclude tests/conditions.c "$library" -o "$logs/conditions_c" && under_valgrind "$logs/conditions_c"
}

# The description that a script of calls has of its own, beside the independent stub: two opinions on the calls.
calls_by_reference() {
    crate build reference --example "$1" && python3 "tests/$1.py" "rust/target/release/examples/$1"
}

# A routine patched across a breakpoint, by the planner's writes.
example_patch() {
    c11 -O2 -Iinclude examples/patch.c "$library" -o "$logs/patch_c" &&
        under_valgrind "$logs/patch_c" > "$logs/patch_c.txt" &&
        diff examples/patch.txt "$logs/patch_c.txt"
}

example_rust() {
    crate run sanirvoq --example kernel > "$logs/kernel_rust.txt" &&
        diff examples/kernel.txt "$logs/kernel_rust.txt"
}

rm -rf "$logs"
mkdir -p "$logs" || exit 1
check library library
check header_c99 header c c99
check header_c11 header c c11
check header_cpp98 header c++ c++98
check header_cpp17 header c++ c++17
check header_alone header_alone
check header_results header_results
check header_calls header_calls
check example_c example_c
check example_c_valgrind under_valgrind "$logs/kernel_c"
check example_rust example_rust
check example_patch example_patch
check examples_equal diff "$logs/kernel_c.txt" "$logs/kernel_rust.txt"
check images_c images_c
check texts_c texts_c
check text_steps_c text_steps_c
check conditions_c conditions_c
check rustfmt rustfmt
check clippy clippy
check rust_doc rust_doc
check without_archive without_archive
check archive_calls tests_of sanirvoq-sys --features measure
check wrapper tests_of sanirvoq
check reference tests_of reference
check steps tests_of steps
check bench_stub tests_of bench_stub
check show_session python3 tests/show_session_test.py
check protocol_examples python3 tests/protocol_examples.py
check text_step_vectors text_step_vectors
check protocol_text python3 tests/protocol_examples.py --text "$logs/text_step_run"
check calls_examples python3 tests/calls_examples.py
check calls_vectors python3 tests/calls_vectors.py --check
check wire_vectors python3 tests/wire_vectors.py --check
check frame_vectors python3 tests/frame_vectors.py --check
check program_vectors python3 tests/program_vectors.py --check
check protected_calls calls_by_reference protected_calls
check record_calls calls_by_reference record_calls
check patch_calls calls_by_reference patch_calls
check patch_run patch_run
check compare_tests tests_of compare
check compare crate run compare -- --seed 1 --steps 300000
check compare_frames crate run compare --bin compare_frames -- --seed 1 --lines 100000 --damaged 100000
check compare_valgrind under_valgrind rust/target/release/compare --seed 2 --steps 3000
check bench crate build bench
echo "$passed passed, $failed failed"
[ "$failed" -eq 0 ]
