#!/usr/bin/env python3
"""Respells this repository's own names of specs/ and proofs/ as today's Rattle does.

    python3 tools/respell.py          run once at the top, after the kit's port script

A definition, a field and a constructor get underscores for dashes. In a lemma's name a dash stays
where it joins two names of definitions, and a plain word is added by an underscore. Names of the
library, names that Rattle makes and names that fall together keep their spelling.
"""

import collections
import pathlib
import re
import sys

NOT_OURS = {"Answers.antt", "Invariants.antt", "Proof.antt", "Choices.antt"}
DECLARED = re.compile(
    r"^( *)((?:(?:abbrev|pub|unfoldable|record|data|ruleset) +)*)([^\s(){}\[\],;.:=]+) *(?::|=|\{|\()"
)
TOKEN = re.compile(r"[^\s(){}\[\],;.:«»\"`]+")
IMPORT = re.compile(r"use +(Rattle\.std[^{;\n]*|[a-z][^{;\n]*)\.\{([^}]*)\}")
SAYS = ("Rattle.std", "borrow")  # the libraries whose words the names of lemmas are made of
RESERVED = {"use", "module", "let", "mod", "in", "elim", "λ", "where", "open", "unfolding", "mutual"}


def main():
    top = pathlib.Path(sys.argv[1] if len(sys.argv) > 1 else ".")
    files = sorted(top.glob("crates/*/specs/**/*.antt")) + sorted(top.glob("crates/*/proofs/**/*.antt"))
    texts = {f: f.read_text(encoding="utf8") for f in files}
    sources = {f: f.read_text(encoding="utf8") for f in sorted(top.glob("crates/*/src/**/*.rt"))}

    library, spoken, words, lemmas = set(), set(), set(), set()
    for text in list(texts.values()) + list(sources.values()):
        for found in IMPORT.finditer(text):
            names = {name.strip().split(" as ")[0] for name in found.group(2).split(",")}
            library |= names
            spoken |= names if found.group(1).startswith(SAYS) else set()
    for file, text in texts.items():
        if file.name in NOT_OURS and "/proofs/" in file.as_posix():
            continue
        for line in text.split("\n"):
            found = DECLARED.match(line)
            if not found or found.group(3) in RESERVED or line.lstrip().startswith("--"):
                continue
            indent, marks, name = found.groups()
            defines = "abbrev" in marks or "unfoldable" in marks or "record" in marks or "data" in marks
            field = indent and "/specs/" in file.as_posix() and marks.strip() == "pub"
            (words if defines or field else lemmas).add(name)
    lemmas -= words
    known = {snake(w) for w in words} | {snake(w) for w in spoken}

    renamed = {}
    for name in sorted(words | lemmas):
        if name in library:
            continue
        new = snake(name) if name in words else lemma(name, known)
        if new != name:
            renamed[name] = new
    taken = words | lemmas | library
    met = collections.Counter(renamed.values())
    for name, new in list(renamed.items()):
        if new in taken or met[new] > 1:
            print(f"falls together, kept: {name} -> {new}")
            del renamed[name]

    for group in (texts, sources):
        for file, text in group.items():
            here = aliases(text, renamed)
            new_text = TOKEN.sub(lambda m: here.get(m.group(0), m.group(0)), text)
            if new_text != text:
                file.write_text(new_text, encoding="utf8")
    for name, new in sorted(renamed.items()):
        print(f"{name} {new}")


def aliases(text, renamed):
    """The renamings of one file: a word that is imported under another name is in snake case too."""
    here = dict(renamed)
    tokens = set(TOKEN.findall(text))
    for alias in re.findall(r"[{ ,]\S+ as ([a-z][^\s,}]*)", text):
        if snake(alias) != alias and snake(alias) not in tokens:
            here[alias] = snake(alias)
    return here


def snake(name):
    """`fourBits` and `four-bits` as `four_bits`; a type's name stays."""
    name = name.replace("-", "_")
    if name[0].islower() and name.isascii():
        name = name.replace("getD", "slice_index_or").replace("natAbs", "unsigned_abs")
        name = re.sub(r"(?<=[a-z0-9]{2})[A-Z]", lambda found: "_" + found.group(0).lower(), name)
    return name


def lemma(name, known):
    """The name by its longest parts that are names of definitions."""
    name = "-".join(snake(part) for part in name.split("-"))
    parts, segments, at = name.split("-"), [], 0
    while at < len(parts):
        for end in range(len(parts), at, -1):
            joined = "_".join(parts[at:end])
            named = joined in known or f"◌{joined}◌" in known
            if named or end == at + 1:
                segments.append((joined, named))
                at = end
                break
    text = segments[0][0]
    for before, (segment, named) in zip(segments, segments[1:]):
        text += ("-" if named and before[1] else "_") + segment
    return text


main()
