#!/usr/bin/env bash
# Makes static libraries and programs of the proved crates, and puts them where the tests, the tools and cargo look:
#     tools/build.sh NAME..
#     target/staticlib/libNAME.a    of a static library (crates.txt says `staticlib`), by `rt lib --cpu x86-64`: by
#                                   default the code is for x86-64-v2, and an archive does not check the processor
#     target/bin/NAME               of a program, by `rt run`, which also runs it, here with no input
# rt proves first what is not proved yet. It ends with exit status 1 at the first that cannot be made; what an earlier
# run left of it then stays.
set -euo pipefail
cd "$(dirname "$0")/.."

# of_crate NAME WORDS..: a command in the crate's folder, with no input.
of_crate() (
    cd "crates/$1" && shift && "$@" < /dev/null
)

for name in "$@"; do
    if grep -q "^$name staticlib" crates.txt; then
        of_crate "$name" rt lib --cpu x86-64
        install -D -m 644 "crates/$name/out/lib$name.a" "target/staticlib/lib$name.a"
    else
        of_crate "$name" rt run > /dev/null
        install -D "crates/$name/out/$name" "target/bin/$name"
    fi
done
