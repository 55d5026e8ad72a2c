#!/usr/bin/env python3
"""Brings the names of this repository's definitions and lemmas to the spelling of today's Rattle: words in snake case.

usage: python3 tools/respell.py        at the top of a checkout, once, after the toolchain's own port.py

A dash stays where it joins two names that the lemma's statement cites, as in `length-body`. A lemma that would have its
function's name gets `_lem`. The test of equality is `=?`, beside `<?` and `≤?`: `==` is the library's own. Functions of
src/, strings, inputs and outputs keep their names.
"""
import collections
import glob
import os
import re
import sys

WORD = r"[^\W\d](?:[\w'′-]*[\w'′])?"
TOKEN = re.compile(WORD)
DECLARED = re.compile(r"^(\s*)((?:pub |abbrev |unfoldable |data |record )*)(" + WORD + r")(?=\s*[:({]|\s*$)")
# Names whose new spelling would say something else than the rule gives.
CHOSEN = {"Refused-at": "RefusedAt", "bit-and": "bit-bit_and", "bit-or": "bit-bit_or"}


def snake(name):
    name = re.sub(r"([a-z0-9])([A-Z])", lambda m: m.group(1) + "_" + m.group(2).lower(), name)
    name = re.sub(r"-([A-Z])(?![A-Z])", lambda m: "-" + m.group(1).lower(), name)
    return name.replace("-", "_")


def spelled(name):
    if name in CHOSEN:
        return CHOSEN[name]
    if name[0].isupper():
        return name.replace("-", "_")
    return snake(name)


def sources():
    for kind in ("specs", "proofs"):
        for path in sorted(glob.glob(f"crates/*/{kind}/**/*.antt", recursive=True)):
            # proofs/F/ is the proof of a function, whose own names go with its code
            if kind == "specs" or not os.path.basename(path) in ("Proof.antt", "Answers.antt", "Invariants.antt") or path.count("/") == 3:
                yield path


def declared():
    """Each declared name with the statements that it stands in front of, and whether it is a definition."""
    found = collections.defaultdict(list)
    for path in sources():
        with open(path, encoding="utf-8") as file:
            lines = file.read().split("\n")
        for at, line in enumerate(lines):
            m = DECLARED.match(line)
            if not m or line.lstrip().startswith(("use ", "module ", "infix", "--", "pub mod", "mod ")):
                continue
            if not re.search(r"(:|\(|\{)", line[m.end():]) and not m.group(2):
                continue
            statement = [line[m.end():]]
            for more in lines[at + 1 : at + 12]:
                if more.startswith(m.group(1) + m.group(3) + " ") or not more.strip():
                    break
                statement.append(more)
            definition = bool(re.search(r"abbrev|unfoldable|data|record", m.group(2)))
            found[m.group(3)].append((definition, " ".join(statement)))
    return found


def cited_outside():
    """Names that come from the toolchain's library."""
    names = set()
    for path in glob.glob("crates/*/**/*.antt", recursive=True) + glob.glob("crates/*/src/**/*.rt", recursive=True):
        with open(path, encoding="utf-8") as file:
            text = file.read()
        for module, list_ in re.findall(r"\buse ([\w.+'-]+)\.\{([^}]*)\}", text):
            if not module.startswith("Rattle.") or module.startswith("Rattle.std."):
                names.update(TOKEN.findall(list_))
    return names


def dashed(name, statements, words):
    """The name with a dash where it joins two names of its statement, or None."""
    parts = name.split("-")
    for k in range(1, len(parts)):
        left, right = "_".join(parts[:k]), "_".join(parts[k:])
        for _, statement in statements:
            cited = {snake(t) for t in TOKEN.findall(statement)}
            if left in cited and right in cited and left in words and right in words:
                return left + "-" + right
    return None


def table():
    found = declared()
    outside = cited_outside()
    words = {spelled(n) for n, s in found.items() if any(d for d, _ in s)} | outside
    result = {}
    taken = collections.defaultdict(list)
    for name, statements in sorted(found.items()):
        if name in outside:
            continue
        definition = any(d for d, _ in statements)
        new = spelled(name)
        if "-" in name and not definition and name not in CHOSEN:
            new = dashed(name, statements, words) or new
        taken[new].append((not definition, "-" in name, name))
    for new, names in taken.items():
        # the definition, if there is one, has the plain name; of two definitions the camel-cased one
        for rank, (_, _, name) in enumerate(sorted(names, key=lambda x: (x[0], x[1], not re.search("[A-Z]", x[2])))):
            given = new + "_lem" * (rank + (new in outside))
            if given != name:
                result[name] = given
    return result


EQUALITY = re.compile(r"(?<![^\s◌])==(?![^\s◌])")


def turned(path, text, names):
    if path.endswith(".antt"):
        text = EQUALITY.sub("=?", text)

    def one(m):
        name = m.group()
        # code has names in snake case of its own
        if path.endswith(".rt") and not re.search("[A-Z-]", name):
            return name
        # a step of a function's code, in a proof that walks it
        if path.endswith("/Proof.antt") and re.search(r"(?:\bc|\bbefore)\.$", text[: m.start()]):
            return name
        return names.get(name, name)

    return TOKEN.sub(one, text)


def main():
    names = table()
    if "--table" in sys.argv:
        for old, new in sorted(names.items()):
            print(old, new)
        return
    paths = glob.glob("crates/*/specs/**/*.antt", recursive=True) + glob.glob("crates/*/proofs/**/*.antt", recursive=True)
    paths += glob.glob("crates/*/src/**/*.rt", recursive=True)
    for path in sorted(paths):
        with open(path, encoding="utf-8") as file:
            text = file.read()
        new = turned(path, text, names)
        if new != text:
            with open(path, "w", encoding="utf-8") as file:
                file.write(new)


if __name__ == "__main__":
    main()
