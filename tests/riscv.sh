#!/usr/bin/env bash
# Checks the archives for RISC-V under qemu, beside the one for x86-64, and the head that runs. Run it after the gate.
#     tests/riscv.sh [STEPS [SEED]]
# STEPS is how many random steps each machine makes, 200,000 unless it is given. The archives are made by
# tools/build_archives.sh, or taken from the folder SANIRVOQ_ARCHIVES.
# A check prints 'ok NAME' or 'FAILED NAME'; what it wrote is in target/riscv/NAME.log. The figures for
# docs/PERFORMANCE.md, "RISC-V", are in target/riscv/figures.txt.
# Needs rt, and on Debian 12 the packages of all tests:
#     apt-get update && apt-get install -y $(cat tests/packages.txt)
# The last line is 'N passed, M failed'; exit status 1 unless M is 0.
set -uo pipefail
given=${SANIRVOQ_ARCHIVES:+$(realpath -m -- "$SANIRVOQ_ARCHIVES")}
cd "$(dirname "$0")/.." || exit 1
steps=${1:-200000}
seed=${2:-1}
archives=${given:-$PWD/target/archives}
export SANIRVOQ_ARCHIVES=$archives
logs=target/riscv
passed=0
failed=0
machines="rv32imac rv32imac-small rv64imac rv64imac-small"

# A check: its name and its command.
check() {
    local name=$1 start=$SECONDS
    shift
    if "$@" > "$logs/$name.log" 2>&1; then
        passed=$((passed + 1))
        echo "ok $name ($((SECONDS - start)) s)"
    else
        failed=$((failed + 1))
        echo "FAILED $name ($((SECONDS - start)) s), see $logs/$name.log"
    fi
}

tools() {
    local tool missing=
    for tool in rt gcc python3 qemu-system-riscv32 qemu-system-riscv64 riscv64-unknown-elf-gcc clang ld.lld; do
        command -v "$tool" || missing="$missing $tool"
    done
    [ -z "$missing" ] || {
        # shellcheck disable=SC2016
        echo "missing:$missing;" 'apt-get update && apt-get install -y $(cat tests/packages.txt)'
        return 1
    }
}

archives() {
    { [ -n "$given" ] || tools/build_archives.sh; } && ls -l "$archives"/*/libsanirvoq.a
}

# Each archive has the functions that the header declares, and asks for memcpy and memset at most.
symbols() {
    local archive name wanted=$logs/symbols_x86_64.txt found=$logs/symbols_found.txt
    nm -g --defined-only "$archives/x86_64/libsanirvoq.a" | awk 'NF == 3 { print $3 }' | sort > "$wanted"
    [ -s "$wanted" ] || return 1
    while read -r name; do
        grep -w "$name" include/sanirvoq.h > "$logs/symbols_header.txt" || {
            echo "the header has no $name"
            return 1
        }
    done < "$wanted"
    for archive in $machines; do
        riscv64-unknown-elf-nm -g --defined-only "$archives/$archive/libsanirvoq.a" | awk 'NF == 3 { print $3 }' |
            sort > "$found"
        diff "$wanted" "$found" || return 1
        riscv64-unknown-elf-nm -u "$archives/$archive/libsanirvoq.a" | awk 'NF == 2 { print $2 }' > "$found"
        ! grep -vxE 'memcpy|memset' "$found" || return 1
    done
}

warnings="-std=c11 -O2 -Wall -Wextra -Wpedantic -Werror"

# build MACHINE COMPILER TEST: the program target/riscv/TEST-MACHINE-COMPILER
build() {
    local machine=$1 compiler=$2 test=$3 bits=${1:2:2} abi=ilp32 out=$logs/$3-$1-$2 file objects=
    local flags="$warnings -DSTEPS=$steps -DSEED=$seed -Iinclude -Itests/riscv"
    if [ "$machine" = x86_64 ]; then
        # shellcheck disable=SC2086
        "$compiler" $flags "tests/riscv/$test.c" tests/riscv/machine.c "$archives/x86_64/libsanirvoq.a" -o "$out"
        return
    fi
    [ "$bits" = 32 ] || abi=lp64
    flags="$flags -mabi=$abi -mcmodel=medany -ffreestanding -fno-builtin"
    case $compiler in
    gcc) compiler="riscv64-unknown-elf-gcc -march=rv${bits}imac_zicsr_zifencei -fno-tree-loop-distribute-patterns" ;;
    clang) compiler="clang --target=riscv$bits-unknown-elf -march=rv${bits}imac" ;;
    esac
    for file in machine.S machine.c "$test.c"; do
        # shellcheck disable=SC2086
        $compiler $flags -c "tests/riscv/$file" -o "$out-$file.o" || return
        objects="$objects $out-$file.o"
    done
    # The linker of GNU for gcc, that of LLVM for clang.
    case $2 in
    gcc)
        # shellcheck disable=SC2086
        $compiler -mabi=$abi -nostdlib -static -Wl,--no-warn-rwx-segments -T tests/riscv/machine.ld $objects \
            "$archives/$machine/libsanirvoq.a" -lgcc -o "$out"
        ;;
    clang)
        # shellcheck disable=SC2086
        ld.lld -T tests/riscv/machine.ld $objects "$archives/$machine/libsanirvoq.a" -o "$out"
        ;;
    esac
}

# run MACHINE COMPILER TEST: its output to .txt; qemu's exit status is the test's.
run() {
    local out=$logs/$3-$1-$2
    build "$@" || return
    if [ "$1" = x86_64 ]; then
        "$out" > "$out.txt"
    else
        timeout 600 "qemu-system-riscv${1:2:2}" -machine virt -bios none -display none -monitor none -serial stdio \
            -kernel "$out" < /dev/null > "$out.txt"
    fi || {
        cat "$out.txt"
        return 1
    }
    cat "$out.txt"
}

# The same sums and counts as on x86-64.
same_steps() {
    run "$1" "$2" steps && diff <(grep '^sums' "$logs/steps-x86_64-gcc.txt") <(grep '^sums' "$logs/steps-$1-$2.txt")
}

figures() {
    local archive
    for archive in x86_64 $machines; do
        size -t "$archives/$archive/libsanirvoq.a" |
            awk -v name="$archive" 'END { print name, "text", $1, "data", $2, "bss", $3 }'
        [ "$archive" = x86_64 ] || grep '^stack' "$logs/steps-$archive-gcc.txt" || return 1
    done | tee "$logs/figures.txt"
}

# The kernel of the example with other processes: an instruction of each kind run elsewhere.
elsewhere() {
    examples/head/build.sh tests/riscv/instructions.S && python3 tests/riscv/elsewhere.py
}

rm -rf "$logs"
mkdir -p "$logs" || exit 1
check tools tools
check archives archives
cases=$(tests/archives_fail.sh --list)
for case in ${cases:-none}; do
    check "archives_fail_$case" tests/archives_fail.sh "$case"
done
check retarget python3 tests/riscv/retarget_test.py
check symbols symbols
check convention_x86_64_gcc run x86_64 gcc convention
check convention_x86_64_clang run x86_64 clang convention
for machine in $machines; do
    check "convention_${machine}_gcc" run "$machine" gcc convention
    check "convention_${machine}_clang" run "$machine" clang convention
done
check steps_x86_64_gcc run x86_64 gcc steps
check steps_x86_64_clang same_steps x86_64 clang
for machine in $machines; do
    check "steps_${machine}_gcc" same_steps "$machine" gcc
    check "steps_${machine}_clang" same_steps "$machine" clang
done
check figures figures
check head examples/head/build.sh
check head_session python3 examples/head/session.py --check
check head_naive python3 examples/head/session.py --naive --check
check head_elsewhere elsewhere
check head_readme python3 tests/riscv/readme_excerpts.py
echo "$passed passed, $failed failed"
[ "$failed" -eq 0 ]
