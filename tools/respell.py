#!/usr/bin/env python3
"""Brings the names of definitions and lemmas of this repository to the kit's spelling.

Run once at the top, behind the kit's own script. Types and facts get upper camel case, all else snake case.
It goes by whole names in files of specs/ and proofs/, and in `ghost` lines and clauses of src/. Names that
Rattle makes from the code (goals, steps, their fields), strings, comments and the code itself stay.
With --show it changes nothing and prints the names.
"""
import collections
import os
import re
import sys

NAME = re.compile(r"[A-Za-z][A-Za-z0-9_'\-]*[A-Za-z0-9_']|[A-Za-z]")
DECLARED = re.compile(
    r"^(\s*)((?:abbrev pub|unfoldable pub|pub data|pub record|data|record|pub|abbrev|unfoldable)\s+)?"
    r"([A-Za-z][A-Za-z0-9_'\-]*)((?:\s*\([^)]*\)|\s*\{[^}]*\})*)\s+:\s"
)


def functions(root):
    """Names of the code's functions."""
    found = set()
    for path in files(root):
        if path.endswith(".rt"):
            with open(path, encoding="utf-8") as f:
                found |= set(re.findall(r"\bfn\s+(\w+)", f.read()))
    return found


def files(root):
    for folder, dirs, names in os.walk(os.path.join(root, "crates")):
        dirs[:] = sorted(d for d in dirs if d != "out")
        for name in sorted(names):
            yield os.path.join(folder, name)


def made(line, name):
    """Whether a line of an answer file declares a goal or an invariant under the name that Rattle gave it."""
    return re.search(r":\s+(?:goal|need)\." + re.escape(name) + r"(?![\w'\-])", line) is not None


def declared(root):
    own, goals = collections.OrderedDict(), set()
    for path in files(root):
        if path.endswith(".rt"):
            with open(path, encoding="utf-8") as f:
                for line in f:
                    if line.startswith("ghost use"):
                        for name in re.findall(r" as ([a-z]\w*)", line):
                            own.setdefault(name, set()).add(path)
        if not path.endswith(".antt"):
            continue
        with open(path, encoding="utf-8") as f:
            for line in f:
                m = DECLARED.match(line)
                if not m:
                    continue
                if made(line, m.group(3)):
                    goals.add(m.group(3))
                elif not line.startswith(("use ", "pub mod", "mod ")):
                    own.setdefault(m.group(3), set()).add(path)
    return own, goals


def low(name):
    return re.sub(r"([a-z0-9])([A-Z])", lambda m: m.group(1) + "_" + m.group(2).lower(), name)


def snake(name, words=()):
    """A dash stays where it joins two words, that is definitions, as in `length-take`."""
    parts = name.split("-")
    to = low(parts[0])
    for left, right in zip(parts, parts[1:]):
        to += ("-" if left in words and right in words else "_") + low(right)
    return to


# Words of the library on lists, of which lemmas speak.
LISTS = {"length", "take", "drop", "append", "map", "set", "insert", "remove"}


def words_of(root):
    found = set(LISTS)
    for path in files(root):
        if path.endswith(".antt") and "/specs/" in path:
            with open(path, encoding="utf-8") as f:
                found |= set(re.findall(r"^(?:abbrev pub|unfoldable pub) ([\w'-]+)", f.read(), re.M))
    return found


def camel(name):
    return "".join(part[:1].upper() + part[1:] for part in name.split("-"))


def renamed(own, goals, taken, words):
    """A lemma that would get the name of a function or a definition gets `_lem` behind it."""
    names = {}
    taken = taken | {snake(n) for n in own if n[0].islower() and "-" not in n}
    for name in own:
        if name[0].isupper():
            to = camel(name) if "-" in name else name
        else:
            to = snake(name, words) if "-" in name or re.search(r"[A-Z]", name) else name
        if "-" in name and to in taken:
            to += "_lem"
        if to != name and name not in goals:
            names[name] = to
    return names


def turn_text(text, names):
    out, at = [], 0
    for m in NAME.finditer(text):
        word = m.group(0)
        before = text[m.start() - 1] if m.start() else ""
        if word in names and before not in (".", "-", "_", "'") and not text[m.end():].startswith(("-", "'")):
            out.append(text[at:m.start()])
            out.append(names[word])
            at = m.end()
    out.append(text[at:])
    return "".join(out)


def turn_antt(text, names, fields):
    lines = []
    for line in text.split("\n"):
        code, mark, comment = line.partition("-- ") if not line.startswith("--") else ("", "", line)
        pieces = re.split(r'("[^"]*")', code)
        for i in range(0, len(pieces), 2):
            pieces[i] = turn_text(pieces[i], names)
            pieces[i] = re.sub(
                r"\.([A-Za-z][A-Za-z0-9_'\-]*)",
                lambda m: "." + fields.get(m.group(1), m.group(1)),
                pieces[i],
            )
        lines.append("".join(pieces) + mark + comment)
    return "\n".join(lines)


def turn_source(text, names, fields):
    """Clauses and ghost lines only: from `ghost use`, `ghost NAME`, `requires` or `ensures` to the end of its braces."""
    out, at = [], 0
    start = re.compile(r"^[ \t]*(?:pub )?(?:ghost use [^;]*;|(?:ghost|requires|ensures)\b[^{;]*(?=\{))", re.M)
    while True:
        m = start.search(text, at)
        if not m:
            break
        end = m.end()
        if not m.group(0).endswith(";"):
            depth = 0
            while True:
                if text[end] == "{":
                    depth += 1
                elif text[end] == "}":
                    depth -= 1
                end += 1
                if depth == 0:
                    break
        out.append(text[at:m.start()])
        out.append(turn_antt(text[m.start():end], names, fields))
        at = end
    out.append(text[at:])
    return "".join(out)


def record_fields(root, names):
    """Fields of records: what stands behind a dot and was declared inside a record."""
    fields = {}
    for path in files(root):
        if not path.endswith(".antt"):
            continue
        inside = False
        with open(path, encoding="utf-8") as f:
            for line in f:
                if re.match(r"\s*(?:pub )?record\b.*where", line):
                    inside = True
                elif line.strip() and not line.startswith((" ", "\t")):
                    inside = False
                m = DECLARED.match(line)
                if inside and m and m.group(1) and m.group(3) in names:
                    fields[m.group(3)] = names[m.group(3)]
    return fields


def main():
    root = "."
    own, goals = declared(root)
    names = renamed(own, goals, functions(root), words_of(root))
    fields = record_fields(root, names)
    if "--show" in sys.argv:
        for a, b in names.items():
            print(a, b)
        return
    count = 0
    for path in files(root):
        if path.endswith(".antt"):
            turn = turn_antt
        elif path.endswith(".rt"):
            turn = turn_source
        else:
            continue
        with open(path, encoding="utf-8") as f:
            text = f.read()
        new = turn(text, names, fields)
        if new != text:
            count += 1
            with open(path, "w", encoding="utf-8") as f:
                f.write(new)
    print(len(names), "names,", count, "files")


if __name__ == "__main__":
    main()
