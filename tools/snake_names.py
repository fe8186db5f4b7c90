#!/usr/bin/env python3
"""Turns this repository's own definitions and lemmas to snake case, in crates/, must-fail edits and the code spans of the pages.

usage: tools/snake_names.py [--check]     at the top of the repository; --check writes nothing, and lists names that would fall together

It was run once, right after the kit's port.py. A name turns if a file of specs/ or proofs/ declares it, so that names of the library, of src/
and of what Rattle makes keep their spelling. A goal's answer in a proof by hand is no name of ours. A second run changes nothing."""
import collections
import glob
import os
import re
import sys

WORD = re.compile(r'[^\s(){}.;,@"«»]+')
HEAD = r"(?:(?:abbrev|unfoldable|pub|data|record|opaque|constructor)\s+)*"
DECLARED = re.compile(r"^(\s*)" + HEAD + r"([^\s(){}.;,@\"«»:\-][^\s(){}.;,@\"«»:]*)\s*(?:\{[^{}\n]*\}\s*|\([^()\n]*\)\s*)*:(?=\s|$)(.*)")
# A lemma that would have its function's name ends in _lem; two more names would meet another of their file.
LEMMAS = (
    "any-over claim-test connects-test cut-test links-from longest-carrying longest-network-record longest-plan-record no-link out-side over-at "
    "packed-from row-fields row-octets rows-below rows-fields rows-test set-entry table-test zero-state"
)
BY_HAND = {n: n.replace("-", "_") + "_lem" for n in LEMMAS.split()}
BY_HAND |= {"setLink": "network_with_link", "with-links": "with_row_links"}


def files(*patterns):
    return sorted(f for p in patterns for f in glob.glob(p, recursive=True) if "/out/" not in f)


def own():
    """The names that specs/ and proofs/ declare, but for a goal's answers."""
    found = set()
    for f in files("crates/*/specs/**/*.antt", "crates/*/proofs/**/*.antt"):
        of_function = f.count("/") > 3 and "/proofs/" in f
        for line in open(f, encoding="utf-8"):
            m = DECLARED.match(line.rstrip("\n"))
            if not m or line.lstrip().startswith("--"):
                continue
            indent, name, rest = m.groups()
            if of_function and (indent or re.match(r"\s*(tie\.|goal\.|\{M : Type 1\})", rest)):
                continue
            found.add(name)
    return found


def snake(name):
    if name in BY_HAND:
        return BY_HAND[name]
    if not re.match(r"[a-z]", name) or not re.search(r"[A-Z-]", name):
        return name
    name = re.sub(r"\bgetD\b", "get_or", name)
    name = re.sub(r"(?<=[a-z0-9])[A-Z]", lambda m: "_" + m[0].lower(), name)
    return name.replace("-", "_")


def imported(text):
    """The names that a file takes from a library, whatever they are called in it."""
    names = set()
    for path, items in re.findall(r"use ([^\s{;]+?)\.?\{([^}]*)\}", text):
        if not path.startswith("Rattle.") or path.startswith("Rattle.std."):
            names.update(items.replace(",", " ").split())
    return names


def turned(text, table, kept=()):
    return WORD.sub(lambda m: m[0] if m[0] in kept else table.get(m[0], m[0]), text)


def turned_rust(text, table, kept):
    """Clauses, ghost items and comments: a name with a dash or a capital in it is none of Rust's here, and strings stay."""
    parts = re.split(r'("(?:\\.|[^"\\\n])*")', text)
    return "".join(p if i % 2 else turned(p, table, kept) for i, p in enumerate(parts))


def turned_page(text, table):
    return re.sub(r"`[^`\n]+`", lambda m: turned(m[0][1:-1], table).join("``"), text)


def main():
    check = "--check" in sys.argv
    declared = own()
    table = {n: snake(n) for n in declared if snake(n) != n}
    # port.py turned some names, but not in edits and pages
    spelled = declared | set(table.values())
    paths = files("crates/*/specs/**/*.antt", "crates/*/proofs/**/*.antt", "crates/*/src/**/*.rt", "crates/*/must-fail/*.edit", "docs/**/*.md", "README.md")
    for path in paths:
        with open(path, encoding="utf-8") as f:
            was = f.read()
        kept = imported(was)
        if path.endswith((".md", ".edit")):
            here = table | {w: snake(w) for w in WORD.findall(was.replace("`", " ")) if w not in table and snake(w) in spelled}
        if path.endswith(".md"):
            now = turned_page(was, here)
        elif path.endswith(".edit"):
            now = turned(was, here)
        elif path.endswith(".rt"):
            now = turned_rust(was, table, kept)
        else:
            now = turned(was, table, kept)
        if check:
            words = set(WORD.findall(was))
            for name in sorted(words & set(table)):
                if name in kept:
                    print(f"kept {path}: {name} is a library's")
                elif table[name] in words:
                    print(f"meets {path}: {name} -> {table[name]}")
        elif now != was:
            with open(path, "w", encoding="utf-8") as f:
                f.write(now)
    if check:
        meet = collections.defaultdict(set)
        for name in own():
            meet[snake(name)].add(name)
        for name, olds in sorted(meet.items()):
            if len(olds) > 1:
                print("two names:", name, sorted(olds))
    print(len(table), "names")


main()
