#!/usr/bin/env bash
# Tests the bench (python/): its types, and as a person uses it, over real lines and a real terminal.
#     tests/bench.sh [WORDS FOR PYTEST]
# Takes libsanirvoq.a of the folder SANIRVOQ_LIB, else of target/staticlib, where `tools/build.sh sanirvoq` puts it. The
# tests of the program of document 01 need target/bin/program_main (`tools/build.sh program_main`), those of the head
# under qemu target/head/head.elf (examples/head/build.sh); what is missing fails here, with the command that makes it.
# Needs on Debian 12 the packages of all tests:
#     apt-get update && apt-get install -y $(cat tests/packages.txt)
# The last line is 'N passed, M failed'; exit status 1 unless M is 0.
set -uo pipefail
if [ -n "${SANIRVOQ_LIB:-}" ]; then
    SANIRVOQ_LIB=$(realpath -m -- "$SANIRVOQ_LIB")
    export SANIRVOQ_LIB
fi
cd "$(dirname "$0")/../python" || exit 1

# Debian's packages belong to Debian's Python, which need not be the first one.
python=python3
"$python" -c 'import pexpect, prompt_toolkit, pyte, pytest, rich, serial' 2> /dev/null || python=/usr/bin/python3
"$python" -c 'import mypy, pexpect, prompt_toolkit, pyte, pytest, rich, serial' || {
    # shellcheck disable=SC2016
    echo 'packages are missing: apt-get update && apt-get install -y $(cat tests/packages.txt)'
    echo "0 passed, 1 failed"
    exit 1
}

results=../target/bench.xml
mkdir -p ../target && rm -f "$results"
types=1
"$python" -m mypy --strict -p sanirvoq && types=0
"$python" -m pytest -q --require-all --junit-xml="$results" "$@"
# What was left out counts as failed, and so do the types and a run that ended before its results.
"$python" - "$types" "$results" << 'COUNT'
import sys
import xml.etree.ElementTree as ElementTree
wrong_types, results = int(sys.argv[1]), sys.argv[2]
try:
    suite = ElementTree.parse(results).getroot().find("testsuite")
    tests, failed = int(suite.get("tests")), sum(int(suite.get(name)) for name in ("failures", "errors", "skipped"))
except OSError:
    tests, failed = 1, 1
print(f"{tests + 1 - failed - wrong_types} passed, {failed + wrong_types} failed")
sys.exit(failed + wrong_types != 0)
COUNT
