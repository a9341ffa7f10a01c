#!/usr/bin/env python3
"""Lists the places in crates/*/src that read like an older Rattle, by point of docs/DESIGN-PASS.md.

tools/places.py          the number of places of each point
tools/places.py -v       and each place
tools/places.py -v 3     the places of one point
"""

import re
import subprocess
import sys
from collections import Counter, defaultdict
from pathlib import Path

TOP = Path(__file__).resolve().parent.parent
COMMENT = re.compile(r"^\s*//")
CLAUSE = re.compile(r"^\s*(ghost|ensures|requires)\b")

# One place is one line of code that matches.
LINES = {
    "1": [
        # states, kinds and piles as numbers
        r"const [A-Z]+: u32 = [0-9];",
        r"\bstate: u32",
        r"\bpile: u8|-> Result<u8, Cause>|fn check_(trace|frames)\(.*Result<u8",
        r"\bif number == [0-9]",
        # a number that stands for none
        r"fn (begun_at|length_at|length|free_before|free_behind|head_number)\b.*-> u32",
    ],
    "3": [
        r"\bwhile\b",
        r"\bfor \w+ in [^{]*\.\.",
        r"^\s*(let mut )?(next|place|number) (= 0|= 1|\+=|= number)",
    ],
    "4": [
        r"\bfn \w+_words\(",
        r"^\s*Ok\((\w+)\) => Ok\(\1\)",
        r"^\s*Err\((\w+)\) => Err\(",
        r"^\s*Some\((\w+)\) => (Some|Ok)\(\1\)",
        r"^\s*None => (None|false),",
        r"^\s*(Cause|Kind)::\w+ => [0-9]+,",
        r"\bnumber as u8",
    ],
    "6": [
        r"\bcount: usize,",
        r"^\s*(used|first): \[u64; 16\]",
        r"\[Step::new\(",
        r"\bfn \w+\(words: &(mut )?\[u64; 16\]",
    ],
    "7": [r"\bif number == [0-9]", r"\bdyn ", r"\bfn\("],
}

# Parameters that travel together: three functions or more.
TOGETHER = [
    r"region: &(?:mut )?\[u8\], (?:cursor|bound|span): u32",
    r"\bcells: u32",
    r"words: &(?:mut )?\[u64; 16\]",
    r"out: &mut \[u8\], at: usize",
    r"(?:length|size): u32, state: u32",
    r"slot: Slot\) -> \(Outcome, Slot\)",
    r"trace: &\[u8\],\s*report: &mut \[u8\]",
]

KEYWORDS = set(
    "fn pub let mut if else match return for in while impl self Self Ok Err Some None true false as ref".split()
)


def code_lines():
    for path in sorted(TOP.glob("crates/*/src/*.rt")):
        for number, line in enumerate(path.read_text().splitlines(), 1):
            if not COMMENT.match(line) and not CLAUSE.match(line):
                yield f"{path.relative_to(TOP)}:{number}", line


def by_lines(patterns):
    found = []
    for place, line in code_lines():
        if any(re.search(p, line) for p in patterns):
            found.append(f"{place}: {line.strip()}")
    return found


def functions():
    for path in sorted(TOP.glob("crates/*/src/*.rt")):
        lines = path.read_text().splitlines()
        for i, line in enumerate(lines):
            head = re.match(r"^( *)(?:pub(?:\(crate\))? )?fn (\w+)", line)
            if not head or line.rstrip().endswith(";"):
                continue
            indent = head.group(1)
            end = next((j for j in range(i, len(lines)) if lines[j] == indent + "}"), None)
            if end is None:
                continue
            body = [l for l in lines[i : end + 1] if not CLAUSE.match(l) and not COMMENT.match(l)]
            start = next((j for j, l in enumerate(body) if l.rstrip().endswith("{")), 0)
            yield f"{path.relative_to(TOP)}:{i + 1} {head.group(2)}", "\n".join(body[start + 1 : -1])


# Functions whose bodies differ in names and numbers alone, and have two lines or more.
def twins():
    groups = defaultdict(list)
    for name, body in functions():
        if body.count("\n") < 1 or "assert" in body:
            continue
        names = {}

        def shape(token):
            word = token.group(0)
            if word in KEYWORDS:
                return word
            return names.setdefault(word, f"n{len(names)}")

        groups[re.sub(r"\w+", shape, body)].append(name)
    return [" ~ ".join(g) for g in groups.values() if len(g) > 1]


def repeated():
    text = {p: p.read_text() for p in sorted(TOP.glob("crates/*/src/*.rt"))}
    facts = Counter()
    for t in text.values():
        facts.update(re.findall(r"requires(?: \w+)? \{(.*)\}", t))
    found = [f"{n} contracts:{fact}" for fact, n in facts.items() if n >= 3]
    for p in TOGETHER:
        n = sum(len(re.findall(p, t)) for t in text.values())
        if n >= 3:
            found.append(f"{n} functions: {p}")
    return found


def answers():
    lines = subprocess.run(
        ["git", "ls-files", "crates/*/proofs/**/*.antt", "crates/*/proofs/*.antt"],
        cwd=TOP, capture_output=True, text=True, check=True,
    ).stdout.split()
    return [f"{f}: {len((TOP / f).read_text().splitlines())} lines" for f in lines]


def main():
    verbose = "-v" in sys.argv
    wanted = [a for a in sys.argv[1:] if a != "-v"]
    for point in "12345678":
        if wanted and point not in wanted:
            continue
        if point == "2":
            found = twins()
        elif point == "5":
            found = repeated()
        elif point == "8":
            found = answers()
            total = sum(int(f.split(": ")[1].split()[0]) for f in found)
            print(f"8: {total} lines in {len(found)} files of proofs")
            found = []
            continue
        else:
            found = by_lines(LINES[point])
        print(f"{point}: {len(found)}")
        if verbose:
            for f in found:
                print("   ", f)


main()
