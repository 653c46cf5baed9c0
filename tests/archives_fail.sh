#!/usr/bin/env bash
# Checks that tools/build_archives.sh says why where the archives cannot be had, ends with exit status 1 and leaves no
# archive, not of an earlier run either.
#     tests/archives_fail.sh [NAME]     one case, or all
#     tests/archives_fail.sh --list     their names; tests/riscv.sh counts each as a check of its own
# A case is a copy of the script beside a kit and an `rt` that are made here: shell scripts, of which one goes wrong.
# They compile nothing. The first case has nothing wrong, so that each other one fails for its own reason.
# Needs python3. The last line is 'N passed, M failed'; exit status 1 unless M is 0.
set -uo pipefail
cd "$(dirname "$0")/.." || exit 1
repository=$PWD

# NAME|what the script says, behind its own name
cases='nothing_wrong|
no_rt|rt, the Rattle toolchain, is not there
no_python|python3 is not there
another_machine|the toolchain compiles on x86-64 only, and this is aarch64
kit_without_clang|no clang at
lib_fails|rt lib failed: error: it was not proved
not_proved|rt lib did not say '\''logic=proved'\''
clang_not_run|rt lib did not run the clang of its kit: the module cannot be had this way
clang_run_twice|rt lib ran clang more than once: which module is it?
no_bitcode|rt lib gave clang no bitcode file: the module cannot be had this way
empty_bitcode|rt lib gave clang no bitcode file: the module cannot be had this way
no_archive|rt lib left no archive for x86-64
unreadable_module|clang cannot read the module
module_refused|the module cannot be turned into one for rv32imac
second_compilation_fails|clang cannot compile the module for rv64imac
second_archive_fails|llvm-ar failed for rv64imac'

# What the script calls of the system, and nothing else: a machine that has rt elsewhere in its PATH is not asked.
make_commands() {
    local name
    mkdir -p "$1"
    for name in bash sh cat chmod cp cut dirname grep ln mkdir rm tail uname wc; do
        ln -s "$(command -v "$name")" "$1/$name"
    done
    ln -s "$(python3 -c 'import sys; print(sys.executable)')" "$1/python3"
}

# A kit whose clang copies its last input to the file behind -o, and whose llvm-ar copies an object to the archive.
make_kit() {
    local bin=$1/toolchain/bin
    mkdir -p "$1/bin" "$1/logic" "$1/toolchain/lib" "$bin"
    cat > "$bin/clang" << 'END'
#!/bin/sh
case "$FAULT $*" in
"unreadable_module "*-emit-llvm*) exit 1 ;;
"second_compilation_fails "*-march=rv64imac*) exit 1 ;;
esac
for word in "$@"; do
    case $word in *.bc | *.ll | *.o) input=${output:-} output=$word ;; esac
done
[ -z "$input" ] || cp "$input" "$output"
END
    cat > "$bin/llvm-ar" << 'END'
#!/bin/sh
case "$FAULT $*" in "second_archive_fails "*rv64imac*) exit 1 ;; esac
cp "$3" "$2"
END
    chmod +x "$bin/clang" "$bin/llvm-ar"
}

# The kit's rt, which makes a module, runs the clang of the kit that its own file lies in, and says that all is proved.
make_rt() {
    cat > "$1/rt" << 'END'
#!/bin/sh
if [ "$1" = doc ]; then
    echo "$KIT/START-HERE.md"
    exit
fi
clang=$(dirname "$0")/../toolchain/bin/clang
mkdir -p out
{
    printf '%s\n' 'define void @f() #0 {' 'start:'
    [ "$FAULT" != module_refused ] || echo '  call void asm "", ""()'
    printf '%s\n' '  ret void' '}' '' 'attributes #0 = { nounwind "target-cpu"="x86-64" }'
} > out/module.bc
[ "$FAULT" != empty_bitcode ] || : > out/module.bc
[ "$FAULT" != no_bitcode ] || mv out/module.bc out/module.ll
if [ "$FAULT" = lib_fails ]; then
    echo 'error: it was not proved'
    exit 1
fi
[ "$FAULT" = clang_not_run ] || "$clang" -c out/module.?? -o out/module.o
[ "$FAULT" != clang_run_twice ] || "$clang" -c out/module.bc -o out/module.o
[ "$FAULT" = no_archive ] || echo archive > out/libsanirvoq.a
if [ "$FAULT" = not_proved ]; then
    echo 'logic=not-proved'
else
    echo 'logic=proved functions=1 sum=0'
fi
END
    chmod +x "$1/rt"
}

# prepare FOLDER NAME: a copy of the script with an archive of an earlier run, and all that it calls
prepare() {
    local folder=$1 name=$2
    mkdir -p "$folder/repository"/{tools,crates/sanirvoq,target/archives/rv32imac} || return
    cp "$repository"/tools/{build_archives.sh,retarget_module.py} "$folder/repository/tools/" || return
    echo old > "$folder/repository/target/archives/rv32imac/libsanirvoq.a"
    make_commands "$folder/commands"
    make_kit "$folder/kit"
    make_rt "$folder/kit/bin"
    mkdir "$folder/rt"
    ln -s "$folder/kit/bin/rt" "$(command -v mv)" "$folder/rt/"
    case $name in
    no_rt) rm "$folder/rt/rt" ;;
    no_python) rm "$folder/commands/python3" ;;
    another_machine)
        rm "$folder/commands/uname"
        printf '%s\n' '#!/bin/sh' 'echo aarch64' > "$folder/commands/uname"
        chmod +x "$folder/commands/uname"
        ;;
    kit_without_clang) rm "$folder/kit/toolchain/bin/clang" ;;
    esac
}

# judge FOLDER STATUS SAID: whether the run ended as its case has it
judge() {
    local folder=$1 status=$2 wanted=$3 left
    left=$(find "$folder/repository/target" -path '*/archives/*' -name libsanirvoq.a -printf '%P ')
    if [ -z "$wanted" ]; then
        [ "$status" -eq 0 ] && [ "$(echo "$left" | wc -w)" -eq 5 ] &&
            grep -q 'define void @f() #0' "$folder/repository/target/archives/rv64imac-small/libsanirvoq.a" && return
        echo "exit status $status, archives: $left"
        return 1
    fi
    [ "$status" -eq 1 ] || { echo "exit status $status, not 1"; return 1; }
    [ -z "$left" ] || { echo "archives are left: $left"; return 1; }
    tail -1 "$folder/said" | grep -qF "build_archives: $wanted" || { echo "the last line is not: $wanted"; return 1; }
}

# one NAME SAID
one() {
    local folder status
    folder=$(mktemp -d) && prepare "$folder" "$1" || return
    env -i PATH="$folder/rt:$folder/commands" FAULT="$1" KIT="$folder/kit" \
        "$folder/repository/tools/build_archives.sh" > "$folder/said" 2>&1
    status=$?
    cat "$folder/said"
    judge "$folder" "$status" "$2"
    status=$?
    rm -rf "$folder"
    return "$status"
}

asked=${1:-}
passed=0
failed=0
while IFS='|' read -r name said; do
    if [ "$asked" = --list ]; then
        echo "$name"
    elif [ -z "$asked" ] || [ "$asked" = "$name" ]; then
        if one "$name" "$said"; then
            passed=$((passed + 1))
            echo "ok $name"
        else
            failed=$((failed + 1))
            echo "FAILED $name"
        fi
    fi
done <<< "$cases"
[ "$asked" != --list ] || exit 0
[ "$((passed + failed))" -gt 0 ] || { echo "no case $asked"; failed=1; }
echo "$passed passed, $failed failed"
[ "$failed" -eq 0 ]
