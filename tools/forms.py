#!/usr/bin/env python3
"""Counts the places in crates/*/src/ that have the older forms of docs/DESIGN-PASS.md, point by point.

    tools/forms.py [-v] [ROOT]

ROOT is the repository's top, by default the one of this file. With -v each place is printed.
"""
import glob
import os
import re
import sys

TEST_CRATES = {"hexout", "curve_test", "plan_calls", "plan_cases", "answer_cases"}


def sources(root):
    for path in sorted(glob.glob(os.path.join(root, "crates/*/src/*.rt"))):
        with open(path) as file:
            yield path.split("crates/")[1], file.read()


def functions(text):
    """Each function: its name, its parameters, its result, its clauses, its body's first lines."""
    for m in re.finditer(r"^ *(?:pub )?(?:extern \"C\" )?fn (\w+)(?:<[^>]*>)?\(([^)]*)\)(?: -> ([^\n{]+))?((?:\n +(?:requires|ensures)[^\n]*)*)", text, re.M):
        yield m.group(1), m.group(2), (m.group(3) or "").strip(), m.group(4)


def count(root):
    found = {}

    def add(point, place):
        found.setdefault(point, []).append(place)

    for path, text in sources(root):
        code = "\n".join(line.split("//")[0] for line in text.split("\n"))
        # 1: own enums, flags beside a value, numbers for refusals and for "none"
        for m in re.finditer(r"^(?:pub )?enum (\w+) \{(.*?)^\}", code, re.M | re.S):
            variants = re.findall(r"^    (\w+)", m.group(2), re.M)
            if 2 <= len(variants) <= 3:
                add("1 own enums of two or three variants", f"{path} {m.group(1)}")
        for m in re.finditer(r"^(?:pub )?struct (\w+) \{(.*?)^\}", code, re.M | re.S):
            if re.search(r"^\s*(?:pub )?(answer: Answer|refusal: u8)", m.group(2), re.M):
                add("1 flags beside a value", f"{path} {m.group(1)}")
        for name, _, result, _ in functions(code):
            if result == "u8" and (name.endswith("_number") and name != "kind_number" or name in ("check_plan", "decode", "encode")):
                add("1 numbers for refusals", f"{path} {name}")
        for m in re.finditer(r"^.*\b(?:return )?(?:1048577|65536|18446744073709551615)\b.*$", code, re.M):
            if re.search(r"return 1048577|return 65536|= 18446744073709551615|value: 18446744073709551615|level: 1048577|unwrap_or\(65536\)", m.group(0)):
                add("1 numbers for none", f"{path} {m.group(0).strip()}")
        # 2: the same function under two names or in two crates
        for name, params, _, _ in functions(code):
            add("2 names", (name, path))
        # 3: loops by hand
        for m in re.finditer(r"^\s*(while (?!let)[^{]*|loop )\{", code, re.M):
            add("3 while and loop", f"{path} {m.group(1).strip()}")
        # 4: equality, order, the less and the greater, bytes, by hand
        for name, _, _, _ in functions(code):
            if name in ("same", "less", "lesser", "greater", "clamp", "distance", "monus", "word", "bits16", "join", "no_low"):
                add("4 by hand", f"{path} {name}")
        # 5: what travels together, and facts that repeat
        for name, params, _, clauses in functions(code):
            def has(*words):
                return all(re.search(rf"\b{w}: ", params) for w in words)
            if has("levels", "base"):
                add("5 levels and base", f"{path} {name}")
            if has("plan", "code"):
                add("5 plan and code", f"{path} {name}")
            if has("acc", "next", "work") or has("first", "second", "work"):
                add("5 three temporary lists", f"{path} {name}")
            if has("k", "s") and has("on", "t") or has("k", "s", "g"):
                add("5 count and state", f"{path} {name}")
            if re.search(r"\bCoded plan", clauses):
                add("5 clauses on Coded", f"{path} {name}")
            if re.search(r"levels(?:\))? ≤ 262144", clauses):
                add("5 clauses on the grid's end", f"{path} {name}")
        for m in re.finditer(r"^(?:pub )?struct (\w+) \{(.*?)^\}", code, re.M | re.S):
            if re.search(r"value: u64", m.group(2)) and re.search(r"changes: u64", m.group(2)) and m.group(1) != "Rank":
                add("5 cost beside changes", f"{path} {m.group(1)}")
        # 6: arrays by value with a count beside them
        for name, params, _, _ in functions(code):
            if re.search(r": &?\[\w+; \d+\],\s+n: usize", params):
                add("6 array and count", f"{path} {name}")
            if re.search(r": &(?:mut )?\[\w+\],\s+(?:n|count): usize", params):
                add("6 a length beside a slice", f"{path} {name}")
        # 7: a number that says what to run
        for m in re.finditer(r"^\s*(if op == \d+|match (?:number|op|code|call\[0\]) )", code, re.M):
            add("7 a number that says what to run", f"{path} {m.group(1).strip()}")
    names = {}
    for name, path in found.pop("2 names", []):
        names.setdefault(name, []).append(path)
    for name, paths in sorted(names.items()):
        if len(paths) > 1 and name != "main":
            add("2 one name in two places", f"{name}: {', '.join(paths)}")
    return found


def main():
    args = [a for a in sys.argv[1:] if a != "-v"]
    root = args[0] if args else os.path.join(os.path.dirname(os.path.abspath(__file__)), "..")
    found = count(root)
    for point in sorted(found):
        print(f"{len(found[point]):4} {point}")
        if "-v" in sys.argv:
            for place in found[point]:
                print(f"         {place}")


main()
