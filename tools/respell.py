#!/usr/bin/env python3
"""Respells the repository's own definitions, constructors, fields and lemmas, after port.py: types and facts in upper camel
case, all else in snake case, primes as apostrophes. Usage, at the top: python3 tools/respell.py [--list]

Names of src/ (functions, types, exports), strings, inputs and outputs are left alone, and so are names that Rattle makes
(goals, steps) and names of the kit's libraries. --list prints the renamings and what falls together, and writes nothing.
"""

import os
import re
import sys

NAME = r"[A-Za-z_][\w'\-]*"
DEF = re.compile(rf"^(\s*)((?:(?:pub|abbrev|unfoldable)\s+)*)({NAME})((?:\s+{NAME})*)\s+:\s(.*)$")
HEAD = re.compile(rf"^\s*(?:pub\s+)?(?:data|record)\s+({NAME})")
MADE = re.compile(r"^(need|goal|given)\.")
USE = re.compile(r"use\s+([^\s{;]+?)(?:\.\{([^}]*)\})?\s*(?:as\s+\S+)?\s*;?\s*$")
# lemmas that would get the name of a word of the library
OTHER = {"bit-and": "and_of_bits", "bit-or": "or_of_bits"}
TOKEN = re.compile(r"(?<![\w'\-])[A-Za-z_][\w']*(?:-[\w']+)+(?![\w'\-])")


def files(ending):
    for folder, dirs, names in os.walk("crates"):
        dirs[:] = sorted(d for d in dirs if d not in ("out", "target"))
        for n in sorted(names):
            if n.endswith(ending):
                yield os.path.join(folder, n)


def text_of(path):
    with open(path, encoding="utf-8") as f:
        return f.read()


def camel(name):
    return "".join(p[:1].upper() + p[1:] for p in name.split("-"))


def respelled(name):
    name = name.replace("\u2032", "'")
    return camel(name) if name[:1].isupper() else name.replace("-", "_")


def defined():
    """The repository's own names with a dash, each with the files that define it."""
    found = {}
    for path in files(".antt"):
        for line in text_of(path).splitlines():
            head = HEAD.match(line)
            m = DEF.match(line)
            if head:
                names = [head.group(1)]
            elif m and not MADE.match(m.group(5)):
                names = [m.group(3)] + m.group(4).split()
            else:
                continue
            for n in names:
                if "-" in n:
                    found.setdefault(n, set()).add(path)
    return found


def foreign():
    """Names that some file takes from the kit's libraries, or from what Rattle makes."""
    own = {d for d in os.listdir("crates")}
    taken = {}
    for ending in (".antt", ".rt"):
        for path in files(ending):
            for line in text_of(path).splitlines():
                m = USE.search(line)
                if not m or not m.group(2):
                    continue
                parts = m.group(1).split(".")
                ours = parts[0] == "Rattle" and parts[1] in own and parts[-1] not in ("Goals", "Given") and "declared" not in parts and "contracts" not in parts
                if not ours:
                    for n in m.group(2).split(","):
                        taken.setdefault(n.strip().split(" as ")[0], set()).add(path)
    return taken


def goals():
    """Names that Rattle makes: those that a proof file answers."""
    made = set()
    for path in files(".antt"):
        for line in text_of(path).splitlines():
            m = DEF.match(line)
            if m and MADE.match(m.group(5)):
                made.add(m.group(3))
    return made


def without_strings(line):
    """The line cut at string literals: pieces at even places are text, the others strings."""
    return re.split(r'("(?:[^"\\]|\\.)*")', line)


def turn(text, table):
    out = []
    for line in text.split("\n"):
        pieces = without_strings(line)
        for i in range(0, len(pieces), 2):
            pieces[i] = TOKEN.sub(lambda m: table.get(m.group(0), m.group(0)), pieces[i])
        out.append("".join(pieces))
    return "\n".join(out)


def main(argv):
    if not os.path.isdir("crates"):
        raise SystemExit("run it at the top of the repository")
    names, taken, made = defined(), foreign(), goals()
    table, kept = {}, {}
    for n in sorted(names):
        if n in taken or n in made:
            kept[n] = "also a name of a library or of Rattle's: " + ", ".join(sorted(taken.get(n, set()) or {"goal"})[:3])
        else:
            table[n] = OTHER.get(n) or respelled(n)
    there = set()
    for ending in (".antt", ".rt"):
        for path in files(ending):
            there |= set(re.findall(r"(?<![\w'\-])[A-Za-z_][\w']*(?![\w'\-])", text_of(path)))
    for n, to in sorted(table.items()):
        if to in there:
            kept.setdefault(n, "falls together with a name that is there: " + to)
    for n, why in sorted(kept.items()):
        print(f"look: {n}: {why}")
    if "--list" in argv:
        for n, to in sorted(table.items()):
            print(f"{n} -> {to}")
        return 0
    for ending in (".antt", ".rt"):
        for path in files(ending):
            old = text_of(path)
            new = turn(old, table)
            if new != old:
                with open(path, "w", encoding="utf-8") as f:
                    f.write(new)
    print(f"respell: {len(table)} names")
    return 0


if __name__ == "__main__":
    raise SystemExit(main(sys.argv[1:]))
