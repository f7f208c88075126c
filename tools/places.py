#!/usr/bin/env python3
"""Counts the places of the design pass in crates/*/src. Usage, at the top: python3 tools/places.py [-l] [POINT..]

Each point is a few patterns, given below; -l prints each place. A place is a line, or for points 2 and 5 a function or a clause.
Test code is counted too, and marked. What a pattern cannot tell (whether two functions are twins, say) is looked at by eye.
"""

import collections
import glob
import re
import sys

# point: name of the pattern, pattern of a line of code
LINES = {
    "1": [
        ("a kind by its number", r"\b(EMPTY|LEAF|CHOICE|SEQUENCE|STAR)\b(?!.*\buse\b)"),
        ("a kind compared as a number", r"kind\s*(==|!=|<=|>=|<|>)|match .*\bkind\b"),
        ("a cell by its number", r"\b(UNKNOWN|HAS|LACKS)\b"),
        ("a code or a flag beside a value", r"\b(shown|code|best|next|found|opposite): (u8|bool)\b"),
        ("0 for none, or a number for an outcome", r"best == 0|code == 0|usize::MAX|=> 99|=> 100 \+|=> 0,$|-> u8$|-> u8 \{"),
        ("an enum of one's own", r"^\s*(pub |pub\(crate\) )?enum "),
    ],
    "3": [
        ("a loop over a range", r"\bfor \w+ in [^{]*\.\."),
        ("a while loop", r"\bwhile\b"),
        ("an index kept by hand", r"\b(count|at|k|i) (\+|-)= 1"),
    ],
    "4": [
        ("equality or order by hand", r"\bfn (same|eq|cmp|partial_cmp|above|shows|all_blank)\b"),
        ("an Ordering taken apart", r"Ordering::(Less|Greater|Equal)\b.*=>"),
        ("conversion by hand", r"\bfn (number|kind_of|row_of|parts_of|from|try_from|length_of)\b|as u8\b|u32::from|as usize\b|as u32\b"),
        ("printing by hand", r"\bfn (\w*_line|push_\w+|print_\w+|denial_line)\b"),
        ("a copy by hand", r"\bfn clone\b|copy_from_slice"),
    ],
    "6": [
        ("an array of fixed size", r"\[[^\[\]]*;\s*\d+\]"),
        ("a length beside a buffer", r"\b(len|count|size|rows|entries|cells): usize\b"),
        ("a Vec of Vecs", r"Vec<Vec<"),
    ],
    "7": [
        ("a switch given as an argument", r"\b(keys|opposite|named): \w+"),
        ("a switch on which policy or state", r"match self \{|match \(state|match \(open|match keys|if opposite"),
    ],
}


def files():
    return sorted(glob.glob("crates/*/src/**/*.rt", recursive=True))


def functions(text):
    """The head of each function: name and parameters."""
    for m in re.finditer(r"\bfn (\w+)(<[^{;]*?>)?\(", text):
        depth, at = 1, m.end()
        while depth:
            depth += {"(": 1, ")": -1}.get(text[at], 0)
            at += 1
        inside = text[m.end():at - 1]
        flat, level = [""], 0
        for ch in inside:
            level += {"(": 1, "[": 1, "<": 1, ")": -1, "]": -1, ">": -1}.get(ch, 0)
            if ch == "," and level == 0:
                flat.append("")
            else:
                flat[-1] += ch
        yield m.group(1), [" ".join(p.split()) for p in flat if p.strip()]


def lines_of(point, show):
    total = 0
    for name, pattern in LINES[point]:
        found = []
        for path in files():
            for number, line in enumerate(open(path), 1):
                code = line.split("//")[0].rstrip("\n")
                if code.lstrip().startswith(("use ", "ghost use ", "requires", "ensures", "ghost ")):
                    continue
                if re.search(pattern, code):
                    found.append((path, number, line.strip()))
        tests = sum("/tests.rt" in path for path, _, _ in found)
        print(f"  {name}: {len(found)} ({tests} in tests)")
        total += len(found)
        if show:
            for path, number, line in found:
                print(f"      {path}:{number}: {line}")
    print(f"point {point}: {total}")


def twins(show):
    """Functions of one name in two crates, and parameter lists that stand more than once."""
    names = collections.defaultdict(set)
    lists = collections.defaultdict(list)
    for path in files():
        crate = path.split("/")[1]
        for name, params in functions(open(path).read()):
            names[name].add(crate)
            if len(params) >= 4:
                lists[tuple(params)].append(f"{path}: {name}")
    same = {n: c for n, c in names.items() if len(c) > 1}
    print(f"  functions of one name in two crates or more: {len(same)}")
    again = {k: v for k, v in lists.items() if len(v) > 1}
    print(f"  lists of four parameters or more that stand twice or more: {len(again)}, in {sum(map(len, again.values()))} functions")
    if show:
        for n, c in sorted(same.items()):
            print(f"      {n}: {', '.join(sorted(c))}")
        for k, v in again.items():
            print(f"      ({', '.join(k)})")
            for f in v:
                print(f"          {f}")
    print(f"point 2: {len(same) + len(again)}")


def facts(show):
    """Clauses of private promises that stand in three functions or more, and functions of five parameters or more."""
    clauses = collections.Counter()
    where = collections.defaultdict(list)
    long = []
    for path in files():
        text = open(path).read()
        for line in text.splitlines():
            m = re.match(r"\s+(requires|ensures)\b\s*\w*\s*(\{.*\})", line)
            if m:
                clauses[(m.group(1), m.group(2))] += 1
                where[(m.group(1), m.group(2))].append(path)
        for name, params in functions(text):
            if len(params) >= 5:
                long.append((path, name, len(params)))
    often = {k: n for k, n in clauses.items() if n >= 3}
    print(f"  clauses that stand three times or more: {len(often)}, in {sum(often.values())} places")
    print(f"  functions of five parameters or more: {len(long)}")
    if show:
        for (kind, clause), n in sorted(often.items(), key=lambda x: -x[1]):
            print(f"      {n} x {kind} {clause}")
        for path, name, n in long:
            print(f"      {path}: {name} has {n}")
    print(f"point 5: {len(often) + len(long)}")


def main():
    args = sys.argv[1:]
    show = "-l" in args
    wanted = [a for a in args if a != "-l"] or list("1234567")
    for point in wanted:
        if point in LINES:
            lines_of(point, show)
        elif point == "2":
            twins(show)
        elif point == "5":
            facts(show)


main()
