#!/usr/bin/env python3
"""Spells the names that this repository's definitions and lemmas have as Rattle spells them: words in snake case.

usage: tools/port-names.py    (at the top of the repository, once, after the kit's own script for older repositories)

A name that a file of specs/ or proofs/ declares and that begins with a small letter gets underscores for its dashes and
its inner capitals; getD reads get_or. Types, facts and modules stay. Where two names would fall together, the
definition takes the plain name and the lemma gets _lem behind it. Names of Rust functions, strings and files stay.
"""

import glob
import re

TOKEN = re.compile(r'[^\s(){}.;,@"«»`\[\]:]+')
DECLARED = re.compile(
    r"^( *)((?:(?:pub|abbrev|unfoldable|record|data|opaque)\s+)*)([^\s(){}.;,@\"«»:]+)"
    r"(?:\s+\{[^{}]*\}|\s+\([^()]*\))*\s*:(?=\s|$)"
)
# The lemmas, as they stand here, whose plain name a definition or the library has.
LEMMAS = {
    "bit-and", "bit-or", "bit-xor", "first-told", "ins-run", "del-run", "value-bytes", "record-bytes", "field-bytes",
    "total-from", "size-cut", "short-from", "keys_from", "term_rows", "in_use", "has-key", "holds-key", "is-held",
    "get-terms", "no-arguments", "listing-most", "record-most", "both_true", "key-count", "first-of", "long-from",
    "key-bytes", "step-good", "end-good", "none_in", "members-from", "end-of", "long-enough", "spoken-done", "name-of",
    "free-slot", "confirms-term", "log-line", "line-then", "room_after",
}

# What the kit's script put in the place of names of this repository, since a library had the same spelling.
BACK = {"ResultKind": "RK", "get_d_map": "get_or_map"}


def snake(name):
    name = name.replace("getD", "get_or")
    name = re.sub(r"(?<=[a-z0-9])([A-Z])", lambda found: "_" + found[1].lower(), name)
    return name.replace("-", "_")


def texts(*patterns):
    return sorted(path for pattern in patterns for path in glob.glob(pattern, recursive=True))


def declared():
    names = set()
    for path in texts("crates/*/specs/**/*.antt", "crates/*/proofs/*.antt"):
        for line in open(path, encoding="utf-8"):
            found = DECLARED.match(line)
            if found and found[3] not in ("let", "--", "use"):
                names.add(found[3])
    return names


def renamings():
    new = {}
    for name in declared():
        if name[0].isupper():
            continue
        to = snake(name) + ("_lem" if name in LEMMAS else "")
        if to != name:
            new[name] = to
    met = {}
    for name in declared():
        met.setdefault(new.get(name, name), set()).add(name)
    for to, names in met.items():
        if len(names) > 1:
            raise SystemExit(f"{to}: {sorted(names)} fall together")
    return new


def aliases(text):
    """The names that one file gives to what it imports."""
    for name in set(re.findall(r"[{ ]\S+ as ([a-z]+(?:[A-Z][a-z]+|-[a-z]+)+)[,}]", text)):
        text = re.sub(rf"(?<![\w-]){name}(?![\w-])", snake(name), text)
    return text


def turn(path, new, final):
    text = open(path, encoding="utf-8").read()
    # What stands behind a dot in a walk of the code is a label that Rattle makes.
    labels = path.endswith("/Proof.antt")
    prose = path.endswith(".md")
    # What the kit's script left of the old spelling: it turns no page and no must-fail edit.
    left = prose or path.endswith(".edit")
    # A lemma of the library that this file imports.
    stays = set(re.findall(r"[^\s{},]+", " ".join(re.findall(r"use Rattle\.std[^\s{]*\{([^}]*)\}", text))))
    out, at = [], 0
    for found in TOKEN.finditer(text):
        word = found[0]
        to = new.get(word)
        if left and to is None and (snake(word) in final or snake(word) in LEMMAS):
            to = snake(word) + ("_lem" if snake(word) in LEMMAS else "")
        if to is None or to == word or word[0].isupper() or word in stays:
            continue
        # A Rust function's name, where a lemma is called so too.
        if snake(word) == word and not path.endswith(".antt"):
            continue
        start = found.start()
        line = text[text.rfind("\n", 0, start) + 1 : start]
        if line.startswith("use ") and text[found.end() : found.end() + 1] == ".":
            continue
        if labels and line.endswith(".") and not line.startswith("use "):
            continue
        if prose and line.count("`") % 2 == 0 and "-" in word:
            continue
        out += [text[at:start], to]
        at = found.end()
    out.append(text[at:])
    turned = aliases("".join(out))
    for name, own in BACK.items():
        turned = re.sub(rf"(?<![\w-]){name}(?![\w-])", own, turned)
    if turned != text:
        open(path, "w", encoding="utf-8").write(turned)


new = renamings()
final = {new.get(name, name) for name in declared()}
for path in texts(
    "crates/*/specs/**/*.antt", "crates/*/proofs/**/*.antt", "crates/*/src/*.rt", "crates/*/must-fail/*",
    "docs/*.md", "README.md", "second/README.md",
):
    turn(path, new, final)
print(f"{len(new)} names are spelled anew")
