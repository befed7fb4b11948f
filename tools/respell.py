#!/usr/bin/env python3
"""Gives this repository's own definitions and lemmas the spelling of today's Rattle: words in snake case.

usage: python3 tools/respell.py            at the top of the repository, once, directly after the kit's port.py

`headerSize` becomes `header_size`, and `block-sound` becomes `block_sound`. Where a lemma would get the name of a definition,
`_lem` follows it. Names of Rust functions, strings, and words of comments outside backticks stay as they are. A table says
which names fell together; the script stops if two others would.
"""

import collections
import glob
import re
import sys

DECLARED = re.compile(r"\s*(?:(?:abbrev|unfoldable|pub)\s+)*([^\s(){}λ:.,;]+)\s*:\s")
TOKEN = re.compile(r"[^\s(){}\[\],;.:`\"|@]+")
# These lemmas had the name of a definition but for its spelling.
LEMMAS = {
    "block-again", "content-again", "join-lines", "edit-answer", "header-size", "content-start", "edit-tree", "comments-end",
    "with-zeros", "tail-start", "content-at", "tree-end", "with-room", "decimals-put", "number-after", "is-row",
}
# The kit's script respelled these lemmas, which have the name of a definition too. They are never the last word of a path.
TURNED = {"blocks_start", "goes_on", "is_digit"}
# Names that the check itself makes.
MADE = re.compile(r"μ|[+]|-(Inv|μ)-|^(invariant|decreases)-|-requires(-\d+)?$|-loop$")


def snake(name):
    return re.sub(r"(?<=[a-z0-9])[A-Z]", lambda m: "_" + m[0].lower(), name).replace("-", "_")


def files(*kinds):
    found = []
    for kind in kinds:
        found += glob.glob("crates/" + kind, recursive=True)
    return sorted(p for p in found if "/out/" not in p)


def declared():
    names = set()
    for path in files("*/specs/**/*.antt", "*/proofs/**/*.antt"):
        for line in open(path, encoding="utf-8"):
            m = DECLARED.match(line)
            if m and not line.lstrip().startswith("--"):
                names.add(m[1])
    return names


def table():
    names = declared()
    turn = {}
    for name in names:
        other = bool(re.match(r"[a-z]\w*[A-Z]", name)) or "-" in name
        if other and name[0].islower() and not MADE.search(name):
            turn[name] = snake(name) + ("_lem" if name in LEMMAS else "")
    new = collections.defaultdict(set)
    for old, name in turn.items():
        new[name].add(old)
    for name in names - set(turn) - TURNED:
        new[name].add(name)
    # `part_bytes` is a lemma of one crate and a definition of another, which do not know each other. `data_size` is a definition,
    # and a field of a record that is only named with the record.
    together = {n: sorted(o) for n, o in new.items() if len(o) > 1 and n not in ("part_bytes", "data_size")}
    if together:
        sys.exit(f"these names fall together: {together}")
    return turn


def turned(text, turn, proofs):
    """One stretch of code. `proofs` says whether it is antt, where the lemmas of TURNED can stand."""

    def one(m):
        word = m[0]
        tight = m.start() > 0 and text[m.start() - 1] == "."
        if proofs and word in TURNED and not tight:
            return word + "_lem"
        return turn.get(word, word)

    return TOKEN.sub(one, text)


def line_turned(line, turn, proofs, mark):
    """A line of a file: strings stay, and in a comment only what stands in backticks is turned."""
    out, rest = "", line
    while rest:
        at = [(rest.find(s), s) for s in ('"', mark) if rest.find(s) >= 0]
        if not at:
            return out + turned(rest, turn, proofs)
        n, s = min(at)
        out += turned(rest[:n], turn, proofs)
        if s == mark:
            return out + re.sub(r"`[^`]*`", lambda m: turned(m[0], turn, proofs), rest[n:])
        end = rest.find('"', n + 1)
        end = len(rest) if end < 0 else end + 1
        out, rest = out + rest[n:end], rest[end:]
    return out


def main():
    turn = table()
    for path in files("*/src/**/*.rt", "*/specs/**/*.antt", "*/proofs/**/*.antt"):
        antt = path.endswith(".antt")
        old = open(path, encoding="utf-8").read()
        new = "\n".join(line_turned(l, turn, antt, "--" if antt else "//") for l in old.split("\n"))
        if new != old:
            open(path, "w", encoding="utf-8").write(new)
    for path in files("*/must-fail/*.edit"):
        old = open(path, encoding="utf-8").read()
        antt, lines = False, []
        for line in old.split("\n"):
            if line.startswith("file: "):
                antt = line.rstrip().endswith(".antt")
            if line.startswith(("old: ", "new: ")):
                line = line[:5] + line_turned(line[5:], turn, antt, "--" if antt else "//")
            lines.append(line)
        if "\n".join(lines) != old:
            open(path, "w", encoding="utf-8").write("\n".join(lines))
    for old, new in sorted(turn.items()):
        print(f"{old} {new}")


main()
