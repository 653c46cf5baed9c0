#!/usr/bin/env python3
"""Turn the LLVM module of the proved crate, made for x86-64, into one for a RISC-V machine.

    python3 tools/retarget_module.py rv32imac|rv64imac [--small] < x86-64.ll > riscv.ll

tools/build_archives.sh calls it. The functions themselves stay as they are. Only this is changed:

- The lines that name the machine go, so that clang's --target decides; so do the attributes target-cpu, probe-stack
  and stack-probe-size, which are x86-64's. --small adds the attribute that -Os gives to C.
- The exported functions get the calling convention of the C ABI of RISC-V. The toolchain writes each as a few lines
  around the real function, for x86-64:
    - A result narrower than a register: the ABI wants it extended, 8 and 16 bits with zeros, 32 bits with their
      highest bit (on rv64, for unsigned numbers too). The attributes zeroext and signext say so.
    - An argument narrower than a register: left without an attribute. Then the function trusts no bit above, whatever
      a caller leaves there.
    - A struct argument of more than 16 bytes: in memory on x86-64 (byval), by address on RISC-V.
    - A struct argument of 9 to 16 bytes: two registers on x86-64 and rv64; on rv32 by address, so that the two parts
      are loaded from there first.
    - A struct result of up to 8 bytes: one register of 64 bits, two of 32; the same as an integer of 64 bits.
    - A struct result of 9 to 16 bytes: two registers on x86-64 and rv64; on rv32 it is stored where the caller says in
      a first argument.
    - A struct result of more than 16 bytes: where the caller says in a first argument, on all three.
    - Pointers and 64-bit numbers (lengths are such on every machine): the same.

Whatever is not one of these is refused with exit status 1, and nothing is written: a shape that the toolchain has not
made so far, or an instruction whose meaning depends on the size of a pointer.
"""

import re
import sys

MACHINES = {"rv32imac": 32, "rv64imac": 64}

# With any of these in a module it would not mean the same where a pointer has four bytes, or not be RISC-V's at all. A
# constant of bytes is the same everywhere.
FORBIDDEN = re.compile(
    r"\b(ptrtoint|inttoptr|addrspacecast|va_arg|blockaddress|indirectbr|thread_local|addrspace|asm)\b(?!\")|"
    r"^@(?!static\.\d+ = private unnamed_addr constant \[\d+ x i8\] c\"[^\"\n]*\", align 1$)|"
    r"\bgetelementptr (?!(?:(?:inbounds|nuw|nusw) )*i8,).*", re.MULTILINE)
SCALAR = re.compile(r"(ptr|i64|i32|i16|i8|i1) noundef (%\S+)")
IN_MEMORY = re.compile(r"ptr noundef byval\(\[(\d+) x i8\]\) align (\d+) (%\S+)")
PART = re.compile(r"(i64|i32|i16|i8) (%\S+)")
EXPORT = re.compile(
    r"^define (?!internal)([^@\n]*) (@[\w.]+)\(([^\n]*)\) (#\d+) \{\n((?:[^}].*\n|\n)*)\}\n", re.MULTILINE)


class Refused(Exception):
    pass


def split(arguments):
    """The arguments of a definition, cut at the commas between them."""
    return [part for part in re.split(r", (?![^(\[]*[)\]])", arguments) if part]


def result_of(name, text, bits):
    """The result of an exported function in RISC-V's convention, and whether it goes through memory."""
    narrow = re.fullmatch(r"noundef (i1|i8|i16|i32)", text)
    if narrow:
        width = int(narrow[1][1:])
        extension = "zeroext " if width < 32 else "signext " if bits == 64 else ""
        return f"noundef {extension}{narrow[1]}", False
    if text in ("void", "noundef i64", "noundef ptr", "i64"):
        return text, False
    if re.fullmatch(r"\{ i64, i(8|16|32|64) \}", text):
        return (text, False) if bits == 64 else ("void", True)
    raise Refused(f"{name} has a result of a shape not met so far: {text}")


def pair_of(name, first, second, body):
    """The alignment of the struct whose parts these two arguments are, as the function's first lines join them."""
    (wide, low), (width, high) = first, second
    whole = re.search(rf"store {wide} {low}, ptr (%\S+), align (\d+)\n"
                      rf"  (%\S+) = getelementptr i8, ptr \1, i64 8\n  store {width} {high}, ptr \3, align \d+\n", body)
    if wide != "i64" or not whole:
        raise Refused(f"{name} has parts of a struct not met so far: {low} and {high}")
    return whole[2]


def arguments_of(name, text, body, bits):
    """The arguments of an exported function in RISC-V's convention, and the lines that have to come first."""
    old, new, loads = split(text), [], []
    while old:
        argument = old.pop(0)
        memory, part = IN_MEMORY.fullmatch(argument), PART.fullmatch(argument)
        if SCALAR.fullmatch(argument):
            new.append(argument)
        elif memory and int(memory[1]) > 16:
            new.append(f"ptr noundef {memory[3]}")
        elif part and old and PART.fullmatch(old[0]):
            other = PART.fullmatch(old.pop(0))
            align = pair_of(name, part.groups(), other.groups(), body)
            if bits == 64:
                new += [argument, other[0]]
            else:
                there = f"{part[2]}.struct"
                new.append(f"ptr noundef {there}")
                loads += [f"  {part[2]} = load {part[1]}, ptr {there}, align {align}",
                          f"  {there}.high = getelementptr i8, ptr {there}, i64 8",
                          f"  {other[2]} = load {other[1]}, ptr {there}.high, align {align}"]
        else:
            raise Refused(f"{name} has an argument of a shape not met so far: {argument}")
    return new, loads


def through_memory(name, result, body):
    """The body of a function whose result of two parts is stored and not returned."""
    found = re.findall(rf"^  ret {re.escape(result)} (%\S+)\n", body, re.MULTILINE)
    if len(found) != 1:
        raise Refused(f"{name} has {len(found)} places that give back {result}")
    high = result.split(", ")[1].split()[0]
    # A struct has parts of four bytes at least wherever it is aligned to four; to be safe nothing more is said.
    stores = [f"  %low.part = extractvalue {result} {found[0]}, 0",
              "  store i64 %low.part, ptr %result, align 4",
              "  %high.place = getelementptr i8, ptr %result, i64 8",
              f"  %high.part = extractvalue {result} {found[0]}, 1",
              f"  store {high} %high.part, ptr %high.place, align 4",
              "  ret void"]
    return body.replace(f"  ret {result} {found[0]}\n", "\n".join(stores) + "\n")


def export(found, bits):
    result, name, arguments, attributes, body = found.groups()
    if not body.startswith("start:\n"):
        raise Refused(f"{name} does not begin with its block start")
    new_result, stored = result_of(name, result, bits)
    new, loads = arguments_of(name, arguments, body, bits)
    if stored:
        body = through_memory(name, result, body)
        new.insert(0, "ptr noundef %result")
    lines = "".join(line + "\n" for line in loads)
    body = body.replace("start:\n", "start:\n" + lines, 1)
    return f"define {new_result} {name}({', '.join(new)}) {attributes} {{\n{body}}}\n"


def retarget(module, bits, small):
    forbidden = FORBIDDEN.search(module)
    if forbidden:
        raise Refused(f"the module has '{forbidden[0]}', which is not the same on every machine")
    module = re.sub(r"^target (datalayout|triple) = .*\n", "", module, flags=re.MULTILINE)
    module = re.sub(r' "(target-cpu|probe-stack|stack-probe-size)"="[^"]*"', "", module)
    if small:
        module = re.sub(r"^(attributes #\d+ = \{ nounwind) \}", r"\1 optsize }", module, flags=re.MULTILINE)
    exported = [found[2] for found in EXPORT.finditer(module)]
    defined = re.findall(r"^define (?!internal)[^@]*(@[\w.]+)\(", module, re.MULTILINE)
    if not exported or exported != defined:
        raise Refused("not every exported function is of the form that the toolchain made so far")
    return EXPORT.sub(lambda found: export(found, bits), module), exported


def main():
    words = [word for word in sys.argv[1:] if word != "--small"]
    if len(words) != 1 or words[0] not in MACHINES:
        sys.exit("usage: retarget_module.py rv32imac|rv64imac [--small] < x86-64.ll > riscv.ll")
    try:
        module, _ = retarget(sys.stdin.read(), MACHINES[words[0]], "--small" in sys.argv)
    except Refused as why:
        sys.exit(f"retarget_module: {why}")
    sys.stdout.write(module)


if __name__ == "__main__":
    main()
