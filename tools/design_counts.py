#!/usr/bin/env python3
"""Counts, in crates/*/src, the places that docs/DESIGN-PASS.md speaks of, at a commit or in the working tree.

    python3 tools/design_counts.py [COMMIT] [--list POINT]
"""
import collections
import pathlib
import re
import subprocess
import sys


def sources(commit, folder="src", ending=".rt"):
    """File name and text of each file in crates/*/FOLDER."""
    pattern = re.compile(r"crates/\w+/%s/.*%s$" % (folder, re.escape(ending)))
    if commit:
        names = git("ls-tree", "-r", "--name-only", commit, "crates").split()
        return [(n, git("show", commit + ":" + n)) for n in names if pattern.match(n)]
    files = sorted(str(p) for p in pathlib.Path("crates").rglob("*" + ending))
    return [(n, pathlib.Path(n).read_text()) for n in files if pattern.match(n)]


def git(*words):
    return subprocess.run(["git", *words], check=True, capture_output=True, text=True).stdout


def lines(files):
    for name, text in files:
        for number, line in enumerate(text.split("\n"), 1):
            if line.strip() and not re.match(r"\s*(//|ghost use|use )", line):
                yield name, number, line


def matching(files, pattern):
    return ["%s:%d: %s" % (n, k, l.strip()) for n, k, l in lines(files) if re.search(pattern, l)]


def functions(files):
    """Name and parameters of each function."""
    for name, text in files:
        for match in re.finditer(r"\bfn (\w+)(?:<[^(]*>)?\(([^)]*)\)", text):
            number = text.count("\n", 0, match.start()) + 1
            parameters = [p.strip() for p in match.group(2).split(",") if p.strip()]
            yield "%s:%d: %s" % (name, number, match.group(1)), parameters


def shape(line):
    line = re.sub(r'b?"[^"]*"|\'[^\']\'', "S", line.strip())
    return re.sub(r"\b\w+\b", lambda m: m.group() if m.group() in WORDS else "I", re.sub(r"\b(self\.|crate::|\w+::)", "", line))


WORDS = {"if", "else", "match", "for", "while", "let", "mut", "fn", "pub", "return", "in", "requires", "ensures", "struct", "enum", "impl"}


def alike(files):
    """Functions of one shape: their bodies differ in names, numbers and constants alone."""
    seen, twins = {}, []
    for name, text in files:
        for match in re.finditer(r"^( *)(?:pub )?fn (\w+).*?\n\1}\n", text, re.M | re.S):
            body = match.group().split("\n" + match.group(1) + "{\n", 1)
            if len(body) < 2:
                continue
            key = shape(re.sub(r"//.*", "", body[1])).split()
            if len(key) < 4:
                continue
            place = "%s:%d: %s" % (name, text.count("\n", 0, match.start()) + 1, match.group(2))
            twins += ["%s ~ %s" % (place, seen[tuple(key)])] if tuple(key) in seen else []
            seen.setdefault(tuple(key), place)
    return twins


def counts(commit):
    files = sources(commit)
    facts = collections.Counter(re.findall(r"requires (?:\w+ )?\{ ([A-Z]\w+)", "".join(t for _, t in files)))
    repeated = ["%s, %d times" % (f, n) for f, n in sorted(facts.items()) if n >= 3]
    long = [f + ", %d parameters" % len(p) for f, p in functions(files) if len(p) >= 5]
    beside = [f for f, p in functions(files) if re.search(r"&(mut )?\[u\d+\]; (at|end|from|first|start|length|count): usize", "; ".join(p))]
    proofs = sources(commit, "proofs", ".antt")
    answers = [n for n, _ in proofs if n.endswith("/Answers.antt")]
    return {
        "1 own Option and Result": matching(files, r"(?<!proofs::)\b(Outcome|Answer|Written|Found)::|\bCharge::(Charged|Refused)"),
        "1 a flag with a value beside it": matching(files, r"^ +(pub )?(outcome|answer|is_read|agrees|number): "),
        "1 numbers for kinds": matching(files, r"\b(SUPPLIED|EQUAL|UNION|INTERSECTION|DIFFERENCE|IMAGE|PREIMAGE|UNLISTED_BOUND|NO_NEED)\b|\b(flags|totality) (==|<=)"),
        "2 functions of one shape": alike(files),
        "3 loops that count by hand": matching(files, r"^ *('\w+: )?while |= '\w+: loop"),
        "4 conversions by `as`": matching(files, r" as (usize|u8|u16|u32|u64)\b"),
        "4 conversions, equality and defaults of our own": matching(files, r"\b(usize_of|wide|same|least|usize_at|flag_at|and_then|conclude|kind_of|node_kind_of|report_\w+|refusal_\w+)\("),
        "5 functions of five parameters and more": long,
        "5 facts that three contracts and more ask for": repeated,
        "6 a slice with a place or a length beside it": beside,
        "7 a match on what to run": matching(files, r"\bmatch (keyword|unit|operator)\b"),
        "8 answers, files": answers,
        "8 proofs, lines": [l for _, t in proofs for l in t.split("\n")],
    }


def main():
    words = sys.argv[1:]
    wanted = words.pop(words.index("--list") + 1) if "--list" in words else None
    words = [w for w in words if w != "--list"]
    for point, places in counts(words[0] if words else None).items():
        print("%6d  %s" % (len(places), point))
        if wanted and point.startswith(wanted) and not point.endswith("lines"):
            print("".join("        %s\n" % p for p in places), end="")


if __name__ == "__main__":
    main()
