#!/usr/bin/env python3
"""Brings the repository's own definitions, lemmas, fields and constructors of specs/ and proofs/ to snake case.

Run once at the top of a checkout, after the toolchain's own script:  python3 tools/respell.py
Names that Rattle makes (goals, steps) and those of its library stay; so do names of src/, strings and comments of code.
"""
import glob
import re
import sys

NAME = r"[^\s(){}\[\];,.:\"`]+"
TOP = re.compile(r"^(?:(?:abbrev|pub|unfoldable|data|record) )*(" + NAME + r") *(?::(?=\s)|[({])(.*)$")
INNER = re.compile(r"^\s+(?:pub )?(" + NAME + r") *:(?=\s)")
WORDS = {"abbrev", "pub", "use", "mod", "let", "elim", "λ", "record", "data", "unfoldable", "unfolding", "ruleset"}


def sources():
    for part in ("specs", "proofs"):
        yield from sorted(glob.glob(f"crates/*/{part}/**/*.antt", recursive=True))


def own_names():
    """Names that are declared here, and those among them that stand behind a dot: fields of records."""
    names, fields = set(), set()
    for path in sources():
        answers = path.endswith(("Answers.antt", "Invariants.antt"))
        block = None
        for line in open(path, encoding="utf-8"):
            if line.strip() and not line[0].isspace():
                m = TOP.match(line)
                head = line.split()
                kinds = [k for k in ("record", "data", "module") if k in head[:2]]
                block = kinds[0] if kinds else None
                if not m or m.group(1) in WORDS:
                    continue
                if answers and re.match(r"\s*(goal|Statement)\b", m.group(2)):
                    continue
                names.add(m.group(1))
            elif block == "module" or block is None:
                # what a module without a name, or a `where`, holds is indented
                m = INNER.match(line)
                if m and not answers:
                    names.add(m.group(1))
            elif block:
                m = INNER.match(line)
                if m:
                    names.add(m.group(1))
                    if block == "record":
                        fields.add(m.group(1))
    return {n for n in names if "-" in n and re.match(r"[A-Za-z]", n)}, fields


def respell(text, names, fields, code):
    def one(m):
        dot, word = m.group(1), m.group(2)
        if word not in names or (dot == "." and word not in fields):
            return m.group(0)
        return dot + word.replace("-", "_")

    out = []
    for line in text.split("\n"):
        head, mark, tail = line, "", ""
        if code and "//" in line:
            at = line.index("//")
            head, mark, tail = line[:at], "", line[at:]
        parts = re.split(r'("(?:[^"\\]|\\.)*")', head) if code else [head]
        parts = [p if code and p.startswith('"') else re.sub(r"(\.?)(" + NAME + ")", one, p) for p in parts]
        out.append("".join(parts) + mark + tail)
    return "\n".join(out)


def main():
    names, fields = own_names()
    files = list(sources()) + sorted(glob.glob("crates/*/src/**/*.rt", recursive=True))
    files += sorted(glob.glob("docs/*.md")) + ["README.md"]
    if "--list" in sys.argv:
        print("\n".join(sorted(names)))
        return
    for path in files:
        text = open(path, encoding="utf-8").read()
        new = respell(text, names, fields, path.endswith(".rt"))
        if new != text:
            open(path, "w", encoding="utf-8").write(new)
    print(len(names), "names")


main()
