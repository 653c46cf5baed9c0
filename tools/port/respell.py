#!/usr/bin/env python3
"""Brings the repository's own definitions and lemmas to today's spelling: words in snake case.

usage: respell.py [--map FILE]           at the top of the repository, after turn.sh; FILE gets the map
       respell.py --by FILE [CRATE..]    by the map of an earlier run; only these crates' files, or all with README.md
                                         and docs/

It reads the declarations of crates/*/specs and proofs (definitions, lemmas, fields of records, constructors of data),
makes a map from old to new names, prints what falls together, and replaces the names in .antt files, in .rt files, in
must-fail edits and, between backticks, in README.md and docs/. Names that Rattle makes (goals, steps) and names of src/
keep their spelling.
"""
import glob, os, re, sys

NAME = r"[^\s(){}\[\];,.:@\"\u2983\u2984\u27e8\u27e9]+"
WORDS = r"((?:(?:abbrev|unfoldable|pub|record|data) )*)"
DECL = re.compile(r"^( *)" + WORDS + "(" + NAME + r")((?: ?\([^)]*\)| ?\{[^}]*\})*) :(?=\s|$)")
SKIP = {"where", "let", "use", "module", "open", "--"}


def files(*pats):
    return sorted(f for p in pats for f in glob.glob(p, recursive=True) if "/out/" not in f)


def new_name(n):
    """The new spelling: camel case inside a word becomes snake case, and a dash between plain words `_`."""
    if n[0].isupper() or "◌" in n or not re.match(r"[A-Za-z]", n):
        if re.match(r"[A-Z][A-Za-z0-9]*-", n):
            head, rest = n.split("-", 1)
            return head + "-" + snake(rest).replace("-", "_")
        return n
    return snake(n).replace("-", "_")


def snake(n):
    n = re.sub(r"(?<=[a-z0-9])(?=[A-Z][a-z])|(?<=[a-z])(?=[A-Z])", "_", n)
    return re.sub(r"_([A-Z])", lambda m: "_" + m.group(1).lower(), n)


def main():
    only = None
    if "--by" in sys.argv:
        at = sys.argv.index("--by")
        table = dict(line.rstrip("\n").split("\t") for line in open(sys.argv[at + 1], encoding="utf-8"))
        only = sys.argv[at + 2 :] or None
        goals = set()
        for f in files("crates/*/proofs/**/Answers.antt", "crates/*/proofs/**/Invariants.antt"):
            goals |= set(re.findall(r"(?m)^(?:abbrev )?pub (\S+) : goal\.", open(f, encoding="utf-8").read()))
        return put_all(table, goals, only)
    decl, goals = {}, set()
    for f in files("crates/*/specs/**/*.antt", "crates/*/proofs/**/*.antt"):
        for line in open(f, encoding="utf-8"):
            m = DECL.match(line)
            if not m or m.group(3) in SKIP or m.group(3).startswith("--"):
                continue
            n = m.group(3)
            if re.search(r" : goal\.", line) and f.endswith(("Answers.antt", "Invariants.antt")):
                goals.add(n)
                continue
            if m.group(1) and "pub" not in m.group(2) and not f.endswith("never"):
                # below the top level: fields, constructors and members of a module _ are declared too
                pass
            decl.setdefault(n, set()).add(f)
    table, back = {}, {}
    for n in sorted(decl):
        w = new_name(n)
        if w != n:
            table[n] = w
    for n in decl:
        back.setdefault(table.get(n, n), set()).add(n)
    # names that fall together: a lemma that would have a definition's name gets _lem
    said = []
    for w, ns in sorted(back.items()):
        if len(ns) > 1:
            # the definition keeps the plain name: one of specs/ before one of proofs/, no dash before a dash
            keep = sorted(ns, key=lambda n: (not any("/specs/" in f for f in decl[n]), "-" in n, n != w, n))
            for n in sorted(ns):
                if n != keep[0]:
                    v = w + "_lem"
                    while v in back:
                        v += "'"
                    table[n] = v
                    said.append(f"together: {n} and {keep[0]}: {v}")
    for n in list(table):
        if n in goals and n not in decl:
            del table[n]
    if "--map" in sys.argv:
        with open(sys.argv[sys.argv.index("--map") + 1], "w", encoding="utf-8") as f:
            f.writelines(f"{a}\t{b}\n" for a, b in sorted(table.items()))
    put_all(table, goals, None)
    print("\n".join(said))
    print(f"{len(table)} names respelled")


def put_all(table, goals, only):
    # a name that was in snake case already and gives way to a definition: only in .antt files, and not in a path
    plain = {n for n in table if n == new_name(n)}
    token = re.compile(r"(?<![\w'₀-₉◌-])(goal\.(?:at\.)?|c\.|l\.)?([A-Za-z][\w'₀-₉-]*)(?![\w'₀-₉-])")

    antt, here, theirs = [True], [""], set()
    own = sorted(os.listdir("crates"))

    def put(m):
        n, t = m.group(2), m.string
        if m.group(1) and (m.group(1).startswith("goal") or (m.group(1) == "c." and here[0].endswith("Answers.antt"))):
            return m.group(0)
        if n in theirs:
            return m.group(0)
        if n in plain:
            if not antt[0] or m.group(1) or t[: m.start(2)].endswith(".") or t[m.end(2) :].startswith("."):
                return m.group(0)
        return (m.group(1) or "") + table.get(n, n)

    of_crates = "specs/**/*.antt", "proofs/**/*.antt", "src/**/*.rt", "must-fail/*.edit"
    for f in files(*(f"crates/*/{it}" for it in of_crates)):
        if only is not None and f.split("/")[1] not in only:
            continue
        t = open(f, encoding="utf-8").read()
        antt[0], here[0] = f.endswith(".antt"), f
        # what this file imports from the kit's libraries keeps its name
        theirs.clear()
        for lib, names in re.findall(r"^(?:pub |ghost )?use ([^\s{]+)\{([^}]*)\}", t, re.M):
            if not re.match(r"Rattle\.(" + "|".join(own) + r")\.", lib):
                theirs.update(n.strip().split(" as ")[0] for n in names.split(","))
        if f.endswith(("Answers.antt", "Invariants.antt")):
            lines = []
            for line in t.split("\n"):
                head = re.match(r"((?:abbrev )?pub )(" + NAME + r") : goal\.", line)
                lead = re.match(r"(" + NAME + r")(?= .*=|$| =)", line)
                if head or (lead and lead.group(1) in goals):
                    n = (head.group(1) + head.group(2)) if head else lead.group(1)
                    lines.append(n + token.sub(put, line[len(n):]))
                else:
                    lines.append(token.sub(put, line))
            w = "\n".join(lines)
        else:
            w = token.sub(put, t)
        if w != t:
            open(f, "w", encoding="utf-8").write(w)
    for f in [] if only is not None else files("README.md", "CONTRIBUTING.md", "docs/**/*.md"):
        t = open(f, encoding="utf-8").read()
        w = re.sub(r"`[^`\n]+`", lambda m: token.sub(put, m.group(0)) if "crates/" not in m.group(0) else m.group(0), t)
        if w != t:
            open(f, "w", encoding="utf-8").write(w)


main()
