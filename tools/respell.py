#!/usr/bin/env python3
"""Brings the repository's own names to the spelling of today's Rattle.

usage: python3 tools/respell.py [FOLDER]    at the top of a checkout in which port.py has run (FOLDER: that checkout, else the current one)

Definitions and lemmas of specs/ and proofs/ get snake case (`firstOdd` becomes `first_odd`). In a lemma's name a dash stays where
it joins two names of functions, types or definitions (`digit-xor`), and becomes an underscore before or after a plain word
(`added-even` becomes `added_even`). Fields of records get underscores only. Functions of src/, exported names, texts, inputs and
outputs keep their names. Where two names would fall together, the table APART gives the lemma or the field another one.
It writes crates/ (.antt, the clauses of .rt, .edit) and the names between backquotes in README.md and docs/.
"""

import glob
import os
import re
import sys

# Names of the library that stand in names of lemmas.
LIBRARY = set("length take drop set sets append map filter get_or replicate reverse min max xor bit_and bit_xor bit_or count_ones suc".split())

# Names that are English too.
ENGLISH = {"well-formed"}

# Names that would fall together with another one.
APART = {
    "bad-chains": "bad_chains_lem",
    "behind-chains": "behind_chains_lem",
    "count-in": "count_in_lem",
    "held-vectors": "held_vectors_lem",
    "is-in": "in_exactly",
    "no-state": "without_state",
    "refused-text": "refused_text_lem",
    "same_keys": "same_keys_lem",
    "slices-in": "some_slices_in",
    "until_stop": "until_stop_lem",
}

DECLARED = re.compile(r"^\s*(?:pub |abbrev |unfoldable )*((?:[^\s(){}:,;.λ\[\]]+ )+): ")
TYPE = re.compile(r"^\s*(?:pub )?(data|record) (\S+)")
LIBRARIES = re.compile(r"^use (?:mathlib|Prim|native|lib|borrow|Rattle\.std|Rattle\.core)[^{]*\{(.*)\}", re.M)
WORD = r"[\w'₀-₉-]"
CAMEL = re.compile(r"(?<=[a-z0-9])(?=[A-Z])")


def snake(part):
    return CAMEL.sub("_", part).lower() if part[:1].islower() else part


def read(path):
    with open(path, encoding="utf-8") as f:
        return f.read()


def files(root, *patterns):
    return sorted(p for pattern in patterns for p in glob.glob(os.path.join(root, pattern), recursive=True) if "/out/" not in p)


def declared(root):
    """The names that specs/ and proofs/ declare: all, the definitions and types among them, and the fields of records."""
    own, nouns, fields, library = set(), set(), set(), set()
    for path in files(root, "crates/*/specs/*.antt", "crates/*/proofs/**/*.antt"):
        text = read(path)
        for m in LIBRARIES.finditer(text):
            for item in m.group(1).split(","):
                library |= set(item.split())
        if path.endswith(("/Lib.antt", "/Proof.antt")):
            continue
        record = None
        for line in text.split("\n"):
            if line.lstrip().startswith("--"):
                continue
            t = TYPE.match(line)
            if t:
                own.add(t.group(2))
                nouns.add(t.group(2))
                record = len(line) - len(line.lstrip()) if t.group(1) == "record" else None
                continue
            m = DECLARED.match(line)
            indent = len(line) - len(line.lstrip())
            if line.strip() and record is not None and indent <= record:
                record = None
            if not m:
                continue
            words = [w for w in m.group(1).split() if w not in ("pub", "abbrev", "unfoldable", "let", "in", "where")]
            own |= set(words)
            if record is not None and indent > record:
                fields |= set(words)
            elif "unfoldable " in line or "abbrev " in line:
                nouns |= set(words)
    for path in files(root, "crates/*/src/*.rt"):
        nouns |= set(re.findall(r"\bfn (\w+)", read(path)))
    return own, nouns, fields, library


def spelling(root):
    own, nouns, fields, library = declared(root)
    parts = nouns | {snake(n) for n in nouns} | LIBRARY
    to = {}
    for name in sorted(own):
        if name in APART:
            to[name] = APART[name]
            continue
        if name in library or not re.search(r"-|[a-z0-9][A-Z]", name) or (name[0].isupper() and "-" not in name):
            continue
        words = [snake(p) for p in name.split("-")]
        new = words[0]
        for left, right in zip(words, words[1:]):
            joined = left in parts and right in parts and name not in fields
            new += ("-" if joined else "_") + right
        if new != name:
            to[name] = new
    # names that only an import's `as` declares
    for path in files(root, "crates/*/src/*.rt", "crates/*/proofs/**/*.antt", "crates/*/specs/*.antt"):
        for name in re.findall(r"\bas ([a-z]\w*[A-Z]\w*)", read(path)):
            to.setdefault(name, APART.get(name, snake(name)))
    return to, own, library


def together(to, own, library):
    """Names that would fall together."""
    new = {}
    for name in sorted(own | set(to)):
        new.setdefault(to.get(name, name), []).append(name)
    return {n: old for n, old in new.items() if len(old) > 1 or (n in library and old != [n])}


def respelled(text, to):
    names = sorted(to, key=len, reverse=True)
    pattern = re.compile(r"(?<!" + WORD + r")(?:" + "|".join(map(re.escape, names)) + r")(?!" + WORD + r")")
    return pattern.sub(lambda m: to[m.group(0)], text)


def clauses(text, to):
    """A source file without its texts: its clauses and ghost lines, and the names that its comments cite."""
    kept = re.compile(r"\"(?:\\.|[^\"\\])*\"|b?'(?:\\.|[^'\\])'")
    said = {n: s for n, s in to.items() if n not in ENGLISH}
    out = []
    for line in text.split("\n"):
        m = re.search(r"//.*$", line)
        code, comment = (line[: m.start()], m.group(0)) if m else (line, "")
        at, new = 0, ""
        for k in kept.finditer(code):
            new += respelled(code[at : k.start()], to) + k.group(0)
            at = k.end()
        out.append(new + respelled(code[at:], to) + respelled(comment, said))
    return "\n".join(out)


def lines(text, to):
    """A file of specs/ or proofs/: in a comment a name that is an English word too stays."""
    said = {n: s for n, s in to.items() if n not in ENGLISH}
    return "\n".join(respelled(l, said if l.lstrip().startswith("--") else to) for l in text.split("\n"))


def edit(text, to):
    """An edit: its two texts."""
    said = {n: s for n, s in to.items() if n not in ENGLISH}
    return "\n".join(respelled(l, to if l.startswith(("old: ", "new: ")) else said) for l in text.split("\n"))


def main(root):
    to, own, library = spelling(root)
    clash = together(to, own, library)
    if clash:
        for new, old in sorted(clash.items()):
            print(f"fall together: {' '.join(old)} -> {new}")
        raise SystemExit(1)
    for path in files(root, "crates/**/*.antt", "crates/**/*.rt", "crates/*/must-fail/*.edit", "README.md", "docs/**/*.md"):
        text = read(path)
        if path.endswith(".antt"):
            new = lines(text, to)
        elif path.endswith(".rt"):
            new = clauses(text, to)
        elif path.endswith(".edit"):
            new = edit(text, to)
        else:
            new = re.sub(r"`[^`\n]+`", lambda m: respelled(m.group(0), to), text)
        if new != text:
            with open(path, "w", encoding="utf-8") as f:
                f.write(new)
    print(f"respell: {len(to)} names")


if __name__ == "__main__":
    main(sys.argv[1] if len(sys.argv) > 1 else ".")
