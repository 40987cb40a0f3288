#!/usr/bin/env python3
"""Spells this repository's own definitions, lemmas, fields and constructors in snake case, as today's Rattle has it.

usage: tools/snake_names.py [--check]      at the top of the repository, once, right behind the kit's port.py

A name that a file of specs/ or proofs/ declares, with a dash or a capital inside, gets underscores wherever it stands:
in specs/, proofs/, the clauses of src/ and, in README.md and docs/, between backquotes. Names that rattle makes stay
(all behind `tie.`, an invariant, a measure), and so do types and modules. Where a new name would fall together with
another, a lemma gets `_lem` behind it, or the script stops and writes nothing. --check writes nothing.
"""

import collections
import os
import re
import sys

NAME = r"[^\s(){}.;,@\"«»`]+"
WORD = re.compile(rf"(?<![^\s(){{}}.;,@«»\"`]){NAME}")
DECLARED = re.compile(
    rf"^\s*(?:(?:unfoldable|abbrev|pub|pattern|axiom)\s+)*((?:{NAME}\s+)*?{NAME})\s*(?:\{{[^{{}}]*\}}\s*)?:(?=\s|$)"
)
MADE = re.compile(r"^(invariant|decreases)-|^\+")
# Names in today's spelling that a definition would fall together with: the lemma or the local word gives way.
GIVES_WAY = {
    "crates/page/specs/LineLength.antt": {"last_line": "last_line_lem"},
    "crates/positions/proofs/Choosing.antt": {"by_bit": "by_bit_lem"},
    "crates/job/specs/ReadBack.antt": {"pairs_of": "pairs_of_lem"},
    "crates/decoder/proofs/call/decode/Proof.antt": {"room_of": "room"},
}
# What std has, and a file with a lemma of that name imports.
LENT = {"to_bits"}
# A definition beside a field of a Rust struct, and one beside a path of its function: no text reads either as the other.
APART = {"list_size", "transform_at"}


def is_old(name):
    if MADE.match(name) or "◌" in name:
        return False
    if not re.match(r"[a-zA-Z][^\s]*$", name):
        return False
    if name[0].isupper():
        return "-" in name
    return "-" in name or re.search(r"[a-z0-9₀-₉²][A-Z]", name) is not None


def in_snake_case(name):
    words = re.sub(r"(?<=[a-z0-9₀-₉²])[A-Z]", lambda m: "_" + m[0].lower(), name)
    words = words.replace("-", "_")
    return words[0].lower() + words[1:] if "-" in name else words


def files(ending, *folders):
    for folder in folders:
        for where, below, names in os.walk(folder):
            below[:] = sorted(it for it in below if it != "out")
            for name in sorted(names):
                if name.endswith(ending):
                    yield os.path.join(where, name)


def read(path):
    with open(path, encoding="utf-8") as f:
        return f.read()


def declared(text):
    for line in text.splitlines():
        if line.lstrip().startswith("--"):
            continue
        m = DECLARED.match(line)
        if m:
            yield from m[1].split()


def borrowed(text):
    """The names that a file has from a library of the kit."""
    own = set(os.listdir("crates"))
    found = set()
    for path, items in re.findall(r"\buse ([^\s;{]+?)\.?\{([^}]*)\}", text):
        steps = path.split(".")
        if steps[0] != "Rattle" or steps[1] not in own:
            found.update(it.split(" as ")[0].strip() for it in items.split(","))
    return found


def renamed(text, table, path):
    """The text with its names turned; behind `tie.` they stay, and so do those of the kit."""
    table = {it: table[it] for it in table.keys() - borrowed(text)}

    if path.endswith(".md"):
        return re.sub(r"`[^`\n]+`", lambda q: "`" + WORD.sub(lambda m: table.get(m[0], m[0]), q[0][1:-1]) + "`", text)
    out, at = [], 0
    for line in text.splitlines(keepends=True):
        mark = "--" if path.endswith(".antt") else "//"
        code = line.lstrip().startswith(mark)
        if code:
            out.append(re.sub(r"`[^`\n]+`", lambda q: "`" + WORD.sub(lambda m: table.get(m[0], m[0]), q[0][1:-1]) + "`", line))
        else:
            start = at

            def turn(m, start=start):
                before = text[max(0, start + m.start() - 6) : start + m.start()]
                if before.endswith(("tie.", "Tie.", "goal.", "Goals.")):
                    return m[0]
                return table.get(m[0], m[0])

            out.append(WORD.sub(turn, line))
        at += len(line)
    return "".join(out)


def main(argv):
    proofs = list(files(".antt", "crates"))
    texts = {p: WORD.sub(lambda m, t=GIVES_WAY.get(p, {}): t.get(m[0], m[0]), read(p)) for p in proofs}
    names = collections.defaultdict(set)
    for p, t in texts.items():
        for name in declared(t):
            names[name].add(p)
    table = {it: in_snake_case(it) for it in names if is_old(it)}
    taken = LENT | {it for it in names if it not in table} | {table[it] for it in table if "-" not in it}
    table.update({it: new + "_lem" for it, new in table.items() if "-" in it and new in taken})
    bad = []
    by_new = collections.defaultdict(set)
    for old, new in table.items():
        by_new[new].add(old)
    words = {p: set(re.findall(rf"(?<![^\s(){{}};,@«»\"`]){NAME}(?!\.[A-Za-z])", t)) for p, t in texts.items()}
    for new, olds in sorted(by_new.items()):
        for p in proofs if new not in APART else []:
            here = [it for it in olds if it in words[p]]
            if len(here) > 1 or here and new in words[p]:
                bad.append(f"{p}: {' '.join(sorted(here))} -> {new}" + (" is there" if new in words[p] else ""))
    for it in bad:
        print("falls together:", it)
    if bad and "--force" not in argv:
        return 1
    changed = 0
    for p in proofs + list(files(".rt", "crates")) + ["README.md"] + list(files(".md", "docs")):
        if p in ("docs/PORT.md", "docs/CHANGES.md"):
            continue
        t = read(p)
        n = renamed(texts.get(p, t), table, p)
        if n != t:
            changed += 1
            if "--check" not in argv:
                with open(p, "w", encoding="utf-8") as f:
                    f.write(n)
    print(f"{len(table)} names, {changed} files")
    return 0


if __name__ == "__main__":
    raise SystemExit(main(sys.argv[1:]))
