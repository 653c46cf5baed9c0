#!/usr/bin/env bash
# Builds libsanirvoq.a for x86-64 and for RISC-V from what the gate proved. Run it after the gate (.ci/run).
#     tools/build_archives.sh
# Writes into target/archives:
#     x86_64/libsanirvoq.a                            that of `tools/build.sh sanirvoq`, byte for byte
#     rv32imac/libsanirvoq.a, rv64imac/...            -O3, as the toolchain compiles for x86-64 (ilp32 and lp64)
#     rv32imac-small/libsanirvoq.a, rv64imac-small/.. -Os
# Needs rt and python3. Ends with exit status 1, and a line that says why, where an archive cannot be had; then there is
# none in target/archives, not of an earlier run either (tests/archives_fail.sh).
#
# What is proved is the crate: what its functions do, for every input. Neither the x86-64 nor a RISC-V archive is
# proved: LLVM compiles both. The toolchain has no target but x86-64, so here its own clang compiles the proved crate's
# module, the one that it compiled for x86-64, for RISC-V too. That is tested, by tests/riscv.sh, and no more.
#
# How the module is had: `rt lib` runs, as always, in a copy of the kit made of links, in which clang first puts its
# input aside. rt takes the kit that its own file lies in, so the copy has its Python files themselves. No step of the
# toolchain is repeated here.
set -euo pipefail
cd "$(dirname "$0")/.."
out=$PWD/target/archives

fail() {
    echo "build_archives: $*" >&2
    exit 1
}

# An archive that is left is one of this run, and stands beside the others.
ended() {
    local status=$?
    [ "$status" -eq 0 ] || rm -f "$out"/*/libsanirvoq.a
}
rm -rf "$out"
trap ended EXIT

command -v rt > /dev/null || fail "rt, the Rattle toolchain, is not there (README names its version)"
command -v python3 > /dev/null || fail "python3 is not there"
kit=$(dirname "$(rt doc)")
machine=$(uname -m)
tools=$kit/toolchain
[ "$machine" = x86_64 ] || fail "the toolchain compiles on x86-64 only, and this is $machine"
[ -x "$tools/bin/clang" ] || fail "no clang at $tools/bin: the toolchain's folders are not as they were"

# The kit, by links, but for rt and clang.
mkdir -p "$out/kit/bin" "$out/kit/toolchain/bin" "$out/module"
for entry in "$kit"/* "$kit/bin"/* "$tools"/* "$tools/bin"/*; do
    case ${entry#"$kit/"} in
    bin | toolchain | toolchain/bin | toolchain/bin/clang) ;;
    bin/rt | bin/*.py) cp "$entry" "$out/kit/bin/" ;;
    *) ln -s "$entry" "$out/kit/${entry#"$kit/"}" ;;
    esac
done
cat > "$out/kit/toolchain/bin/clang" << END
#!/bin/sh
# Puts clang's input aside, counts the calls, and runs the kit's clang, unchanged.
echo call >> '$out/module/calls'
for word in "\$@"; do
    case \$word in *.bc) cp "\$word" '$out/module/module.bc' ;; esac
done
exec '$tools/bin/clang' "\$@"
END
chmod +x "$out/kit/toolchain/bin/clang"

(cd crates/sanirvoq && exec "$out/kit/bin/rt" lib --cpu x86-64) > "$out/lib.log" 2>&1 ||
    fail "rt lib failed: $(tail -1 "$out/lib.log") (all of it: $out/lib.log)"
grep -q '^logic=proved ' "$out/lib.log" || fail "rt lib did not say 'logic=proved': see $out/lib.log"
[ -f "$out/module/calls" ] || fail "rt lib did not run the clang of its kit: the module cannot be had this way"
[ "$(wc -l < "$out/module/calls")" = 1 ] || fail "rt lib ran clang more than once: which module is it?"
[ -s "$out/module/module.bc" ] || fail "rt lib gave clang no bitcode file: the module cannot be had this way"
mkdir -p "$out/x86_64"
cp crates/sanirvoq/out/libsanirvoq.a "$out/x86_64/" || fail "rt lib left no archive for x86-64"

# The module as text; no pass is run over it.
"$tools/bin/clang" --no-default-config --target=x86_64-unknown-linux-gnu -x ir -S -emit-llvm -Xclang \
    -disable-llvm-passes "$out/module/module.bc" -o "$out/module/module.ll" || fail "clang cannot read the module"

# archive MACHINE ABI [--small]: the flags are those that the toolchain gives for x86-64, but for the machine's own.
archive() {
    local bits=${1:2:2} folder=$out/$1${3:+-small} level=-O3
    [ -z "${3:-}" ] || level=-Os
    mkdir -p "$folder"
    python3 tools/retarget_module.py "$1" ${3:+"$3"} < "$out/module/module.ll" > "$out/module/$1.ll" ||
        fail "the module cannot be turned into one for $1"
    "$tools/bin/clang" --no-default-config "--target=riscv$bits-unknown-elf" "-march=$1" "-mabi=$2" -mcmodel=medany \
        -Wno-override-module -Werror -ffunction-sections -fdata-sections -mllvm -trap-unreachable \
        -mllvm -no-trap-after-noreturn -mllvm -disable-machine-licm -mllvm -disable-postra-machine-licm \
        -mllvm -sink-common-insts=false "$level" -c -x ir "$out/module/$1.ll" -o "$folder/sanirvoq.o" ||
        fail "clang cannot compile the module for $1"
    "$tools/bin/llvm-ar" rcsD "$folder/libsanirvoq.a" "$folder/sanirvoq.o" || fail "llvm-ar failed for $1"
    rm "$folder/sanirvoq.o"
}
archive rv32imac ilp32
archive rv64imac lp64
archive rv32imac ilp32 --small
archive rv64imac lp64 --small

echo "The crate sanirvoq is proved ($(grep '^logic=proved ' "$out/lib.log" | tail -1 | cut -d' ' -f1,2))."
echo "These archives are its module, compiled. The compilation is not proved; tests/riscv.sh and outside.sh test it:"
for file in "$out"/*/libsanirvoq.a; do
    printf '  %6d bytes  %s\n' "$(wc -c < "$file")" "${file#"$PWD/"}"
done
