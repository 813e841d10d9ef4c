#!/usr/bin/env python3
"""Spells the names that this repository declares in specs/ and proofs/ as today's Rattle spells names: words in snake case.

usage: tools/respell.py        at the top of the repository, once, right after port.py

A name in camel case, as `floorDiv`, becomes `floor_div`, and a name whose words are joined by a dash, as `quot-fits`, becomes `quot_fits`. Types,
modules and facts keep their capitals. Where a law would get the name of the definition that it is about, it gets `_lem`, as `exactly_test_lem`.
Names that Rattle makes of the code keep their dashes, and names of the library and of src/ stay. Rewritten are specs/, proofs/, the clauses and
`ghost use` lines of src/, the edits of must-fail/ that apply to a file of specs/, and names in comments and documents.
"""
import collections
import glob
import re

SIGNATURE = re.compile(r"^\s*(?:(?:abbrev|unfoldable|pub)\s+)*([^\s:(){}]+(?:\s+[^\s:(){}]+)*?)\s+:(?:\s|$)")
OTHER = re.compile(r"^\s*(?:use|let|in|where|module|elim|if|then|else|mod|pub mod)(?:\s|$)")
WORDS = {"pub", "abbrev", "unfoldable", "record", "data", "module", "mutual"}
TOKEN = re.compile(r"[A-Za-z_][^\s(){}\[\];,.`\"]*")
# Names that Rattle makes and a proof answers.
MADE = re.compile(r"^(?:invariant|decreases)-|-requires(?:-\d+)?$")
# Names whose words the capitals do not tell.
TOLD = {"leZof": "le_z_of", "ltZof": "lt_z_of"}
# Modules that Rattle makes: what follows these words keeps its spelling.
GENERATED = {"tie", "goal", "lts", "reads", "given"}


def antt_files():
    return sorted(glob.glob("crates/*/specs/**/*.antt", recursive=True) + glob.glob("crates/*/proofs/**/*.antt", recursive=True))


def read(path):
    with open(path, encoding="utf-8") as f:
        return f.read()


def declared(text):
    names = set()
    for line in text.splitlines():
        line = re.sub(r"--.*", "", line)
        m = SIGNATURE.match(line)
        if m and not OTHER.match(line):
            names |= {n for n in m.group(1).split() if n not in WORDS}
    return names


def snake(name):
    if name in TOLD:
        return TOLD[name]
    return re.sub(r"(?<=[a-z0-9])([A-Z])", lambda m: "_" + m.group(1).lower(), name).replace("-", "_")


def table(names):
    """The new name of each declared name that changes."""
    old = {n for n in names if re.match(r"[a-z]", n) and not MADE.search(n)}
    groups = collections.defaultdict(set)
    for n in old:
        groups[snake(n)].add(n)
    new = {}
    for to, group in groups.items():
        # the definition keeps the plain name: it was in camel case, as the laws were not
        camel = [n for n in group if re.search(r"[A-Z]", n)]
        first = camel[0] if camel else to if to in group else sorted(group)[0]
        assert len(camel) < 2 and len(group) < 3, group
        for n in group:
            name = to if n == first else to + "_lem"
            if name != n:
                new[n] = name
    return new


def library_names(text, own):
    """The names that a file takes from elsewhere than this repository."""
    found = set()
    for m in re.finditer(r"^use\s+(\S+?)\.\{([^}]*)\}", text, re.M):
        if not any(m.group(1).startswith("Rattle." + c + ".") for c in own):
            found |= set(re.split(r"[\s,]+", m.group(2)))
    return found


def turned(text, new):
    """A term or a declaration with its names turned."""

    def one(m):
        t = m.group(0)
        before = text[: m.start()]
        if t not in new:
            return t
        if before.endswith("."):
            if re.search(r"(?:^|[^\w'-])(?:%s)\.$" % "|".join(GENERATED), before[-12:]):
                return t
            if "_" in t and new[t].endswith("_lem"):
                return t
        if text[m.end() : m.end() + 1] == "." and new[t].endswith("_lem"):
            return t
        return new[t]

    return TOKEN.sub(one, text)


def in_prose(text, new):
    """Names between backticks, and names in camel case, which are no words of the language."""
    camel = {n: to for n, to in new.items() if re.search(r"[a-z][A-Z]", n)}
    text = re.sub(r"`([^`\n]+)`", lambda m: "`" + turned(m.group(1), new) + "`", text)
    return turned(text, camel)


def antt(text, new):
    lines = []
    for line in text.splitlines(keepends=True):
        m = re.search(r"(?:^|(?<=\s))--(?:\s|$)", line)
        code, note = (line[: m.start()], line[m.start() :]) if m else (line, "")
        lines.append(turned(code, new) + in_prose(note, new))
    return "".join(lines)


def rattle(text, new):
    """A file of src/: its `ghost use` lines and clauses, and names in comments."""
    out, at = [], 0
    for m in re.finditer(r"ghost use [^;]*;|\b(?:requires|ensures|ghost)\*?\s+(?:\w+\s*:?\s*)?\{|//[^\n]*", text):
        if m.start() < at:
            continue
        out.append(text[at : m.start()])
        at = m.end()
        if m.group(0).startswith("//"):
            out.append(in_prose(m.group(0), new))
            continue
        if m.group(0).endswith("{"):
            depth = 1
            while depth:
                depth += {"{": 1, "}": -1}.get(text[at], 0)
                at += 1
        out.append(turned(text[m.start() : at], new))
    return "".join(out) + text[at:]


def edit(text, new):
    m = re.search(r"^file: (\S+)", text, re.M)
    if not m or not m.group(1).endswith(".antt"):
        return text
    return re.sub(r"(?m)^(old|new):(.*)$", lambda k: k.group(1) + ":" + turned(k.group(2), new), text)


def main():
    own = [p.split("/")[1] for p in glob.glob("crates/*/src")]
    files = {p: read(p) for p in antt_files()}
    names = set()
    for text in files.values():
        names |= declared(text)
    new = table(names)
    turn = {}
    for p, text in files.items():
        here = {n: to for n, to in new.items() if n not in library_names(text, own)}
        turn[p] = antt(text, here)
        had = set(TOKEN.findall(re.sub(r"--.*", "", text)))
        for n, to in here.items():
            if n in had and to in had and to not in here:
                print("look: %s has both %s and %s" % (p, n, to))
    for p in sorted(glob.glob("crates/*/src/**/*.rt", recursive=True)):
        turn[p] = rattle(read(p), new)
    for p in sorted(glob.glob("crates/*/must-fail/*.edit")):
        turn[p] = edit(read(p), new)
    for p in sorted(glob.glob("docs/**/*.md", recursive=True)) + ["README.md"]:
        turn[p] = in_prose(read(p), new)
    changed = 0
    for p, text in turn.items():
        if text != read(p):
            with open(p, "w", encoding="utf-8") as f:
                f.write(text)
            changed += 1
    print("%d names, %d files" % (len(new), changed))


if __name__ == "__main__":
    main()
