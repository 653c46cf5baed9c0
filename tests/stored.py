"""The stored files of the programs: written, or compared with what is wanted."""

import sys


def same(path, wanted):
    """Whether the stored file holds the wanted bytes; says where it does not."""
    if not path.is_file():
        print(f"{path}: missing")
        return False
    stored = path.read_bytes()
    if stored == wanted:
        return True
    shorter = min(len(stored), len(wanted))
    first = next((i for i in range(shorter) if stored[i] != wanted[i]), shorter)
    print(f"{path}: differs from byte {first} on "
          f"({len(stored)} bytes stored, {len(wanted)} wanted)")
    return False


def run(make):
    """Writes the files that make() gives by path, or compares them (--check).

    Prints what make() says of them, with their sizes. Gives the exit status.
    """
    script, *arguments = sys.argv
    if arguments not in ([], ["--check"]):
        print(f"usage: {script} [--check]")
        return 2
    files, said = make()
    if arguments:
        if not all([same(path, data) for path, data in files.items()]):
            return 1
    else:
        for path, data in files.items():
            path.parent.mkdir(parents=True, exist_ok=True)
            path.write_bytes(data)
    sizes = ", ".join(f"{path.parent.name}/{path.name} {len(data)}"
                      for path, data in files.items())
    print(f"{said}; bytes: {sizes}")
    return 0
