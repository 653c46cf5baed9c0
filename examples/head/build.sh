#!/usr/bin/env bash
# Builds the head, target/head/head.elf, and the same kernel over the naive stub, target/head/naive.elf.
#     examples/head/build.sh [PROGRAMS]
# PROGRAMS is another file in the place of programs.S; then only target/head/NAME.elf is built, with the proved stub.
# Needs the archive of tools/build_archives.sh, which is looked for in the folder SANIRVOQ_ARCHIVES or target/archives,
# and a cross compiler: apt-get update && apt-get install -y gcc-riscv64-unknown-elf
set -euo pipefail
cd "$(dirname "$0")/../.."
archives=${SANIRVOQ_ARCHIVES:-target/archives}
archive=$archives/rv32imac-small/libsanirvoq.a
here=examples/head

fail() {
    echo "build.sh: $*" >&2
    exit 1
}

command -v riscv64-unknown-elf-gcc > /dev/null ||
    fail "no RISC-V compiler: apt-get update && apt-get install -y gcc-riscv64-unknown-elf"
[ -f "$archive" ] || fail "no $archive: run tools/build_archives.sh first"
mkdir -p target/head

# build NAME PROGRAMS STUB
build() {
    riscv64-unknown-elf-gcc -march=rv32imac_zicsr_zifencei -mabi=ilp32 -mcmodel=medany -std=c11 -O2 -Wall -Wextra \
        -Wpedantic -Werror -ffreestanding -fno-builtin -fno-tree-loop-distribute-patterns -nostdlib -static \
        -Wl,--gc-sections -Iinclude -I$here -T $here/head.ld $here/start.S "$2" $here/kernel.c $here/elsewhere.c \
        "$here/$3.c" "$archive" -o "target/head/$1.elf"
    echo "target/head/$1.elf"
}

if [ $# -eq 0 ]; then
    build head $here/programs.S proved
    build naive $here/programs.S naive
else
    build "$(basename "$1" .S)" "$1" proved
fi
