#!/usr/bin/env bash
# Runs the head under qemu until it is ended from outside.
#     examples/head/run.sh [--naive] [SERIAL]
# SERIAL says where qemu puts the head's serial line, in qemu's words: stdio (the default), pty, or a socket such as
# tcp:127.0.0.1:4000,server=on,wait=off or unix:/tmp/head.sock,server=on,wait=off.
# Needs qemu: apt-get update && apt-get install -y qemu-system-misc
set -euo pipefail
cd "$(dirname "$0")/../.."
name='head'
if [ "${1:-}" = --naive ]; then
    name=naive
    shift
fi
command -v qemu-system-riscv32 > /dev/null || {
    echo "run.sh: no qemu: apt-get update && apt-get install -y qemu-system-misc" >&2
    exit 1
}
[ -f "target/head/$name.elf" ] || {
    echo "run.sh: no target/head/$name.elf: run examples/head/build.sh first" >&2
    exit 1
}
exec qemu-system-riscv32 -machine virt -bios none -display none -monitor none -serial "${1:-stdio}" \
    -kernel "target/head/$name.elf"
