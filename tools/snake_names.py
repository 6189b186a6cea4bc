#!/usr/bin/env python3
"""Brings the repository's own names of specs/ and proofs/ to snake case: isNumber becomes is_number, entry-around entry_around.

usage: python3 tools/snake_names.py [--list]        at the top of the repository, once, after /opt/rattle/port/port.py

A word in camel case becomes one in snake case, and a dash between words an underscore. The letters of the documents (tD) stay, and so do the answers of a proof that walks the code by
hand, which are called what the check calls them. It rewrites .antt, .rt, .edit and .md files (of a page what stands between backticks) and
prints each name that would fall together with another, which it leaves. --list prints the names and writes nothing. A second run changes
nothing.
"""

import os
import re
import sys

LETTERS = {"tD"}
# What is no lemma but a step that the check names after a function.
LEMMAS = {"at-most": "at_most"}
NAME = re.compile(r"[^\W\d][\w'′]*(?:-[\w'′]+)*")
SKIPPED = re.compile(r"\"(?:[^\"\\\n]|\\.)*\"|b'(?:\\.|[^'\\])'|--[^\n]*|//[^\n]*")
WORDS = ("abbrev", "unfoldable", "pub", "record", "data", "let", "|", "mutual")
ANSWER = re.compile(r"^(tie\.Need|goal\.|\{M : Type|statement|Statement)")


def files(ends):
    for top in ("crates", "docs", "."):
        for at, dirs, names in os.walk(top):
            dirs[:] = [] if top == "." else sorted(d for d in dirs if d not in ("out", "target", ".git"))
            for n in sorted(names):
                if n.endswith(ends):
                    yield os.path.join(at, n)


def text(path):
    with open(path, encoding="utf-8") as f:
        return f.read()


def code(path):
    """The text without comments, strings and bytes."""
    t = text(path)
    if path.endswith(".antt"):
        return re.sub(r"\"(?:[^\"\\\n]|\\.)*\"|--(?=[ \n])[^\n]*", " ", t)
    t = re.sub(r"\"(?:[^\"\\\n]|\\.)*\"|b'(?:\\.|[^'\\])'|//[^\n]*", " ", t)
    return t


def snake(part):
    return "_".join(snake_word(word) for word in part.split("_"))


def snake_word(word):
    if word in LETTERS or not re.match(r"[a-zα-ω]", word):
        return word
    return re.sub(r"(?<=[a-z0-9α-ω])(?=[A-Z])", "_", word).lower()


def declared(path):
    """The names that a file declares, each with its statement and whether it is an answer to what the check asks."""
    lines = code(path).split("\n")
    for i, line in enumerate(lines):
        m = re.match(r"(\s*)((?:(?:abbrev|unfoldable|pub|let|\|) )*)([^\s(){}:;,.=]+)((?: [^\s:=]+)*?) ?(?:: | :$|= )", line)
        if not m or m[3] in WORDS or m[3] in ("use", "where", "module", "unfolding", "in"):
            continue
        if "=" in line[: m.end()] and "let" not in m[2]:
            continue
        said, j = line[m.end() :], i + 1
        while j < len(lines) and lines[j].startswith(m[1] + " ") and lines[j].strip():
            said += "\n" + lines[j]
            j += 1
        yield m[3], said, bool(ANSWER.match(said.strip()))


def chosen():
    antt, rt = list(files((".antt",))), list(files((".rt",)))
    used = set()
    for p in antt + rt:
        used |= set(NAME.findall(code(p)))
    names, kept, joins = {}, set(), set()
    for n in used:
        parts = n.split("-")
        new = "-".join(snake(p) for p in parts)
        if new != n:
            names[n] = new
    for p in antt:
        for n, said, answers in declared(p):
            if "-" not in n:
                continue
            if answers or n.startswith(("invariant-", "decreases-")):
                kept.add(n)
                continue
            joins.add(n)
    for n in joins - kept:
        new = "_".join(snake(p) for p in n.split("-"))
        if new != n:
            names[n] = new
    for n in kept:
        names.pop(n, None)
    # What the kit calls so keeps its name.
    ours = {line.split(":")[0] for line in text("crates.txt").split("\n") if re.match(r"\w+:", line)}
    for p in antt + rt:
        for m in re.finditer(r"use ([^\s;{]+?)\.\{([^}]*)\}", code(p)):
            of = re.match(r"Rattle\.(\w+)\.", m[1])
            if not of or of[1] not in ours:
                for n in re.split(r"[,\s]+", m[2]):
                    names.pop(n, None)
    # A lemma that would have its definition's name, or one that the kit or an earlier script gave a definition, is called so and _lem.
    is_declared = {n for p in antt for n, _, _ in declared(p)}
    is_source = {n for p in rt for n in NAME.findall(code(p))}
    taken = {}
    for n in sorted(used):
        taken.setdefault(names.get(n, n), []).append(n)
    for new, olds in sorted(taken.items()):
        if len(olds) == 1:
            continue
        words = [n for n in olds if snake(n) != n and "-" not in n]
        if not words and new in olds:
            words = [new]
        for n in olds:
            if n not in words and n not in kept and ("-" in n or (words and n in is_declared - is_source)):
                names[n] = LEMMAS.get(n, new + "_lem")
    taken = {}
    for n in sorted(used):
        taken.setdefault(names.get(n, n), []).append(n)
    for new, olds in sorted(taken.items()):
        if len(olds) > 1 and (len(olds) > 2 or len([n for n in olds if n in is_declared]) > 1):
            print(f"together: {' '.join(olds)} -> {new}")
    return names


def turned(path, names):
    t = text(path)
    word = lambda m: names.get(m[0], m[0])
    if path.endswith(".md"):
        return re.sub(r"`[^`\n]*`", lambda m: NAME.sub(word, m[0]), t)
    out, at = [], 0
    for m in re.finditer(r"\"(?:[^\"\\\n]|\\.)*\"|b'(?:\\.|[^'\\])'", t):
        out += [NAME.sub(word, t[at : m.start()]), m[0]]
        at = m.end()
    return "".join(out) + NAME.sub(word, t[at:])


def main():
    names = chosen()
    if "--list" in sys.argv[1:]:
        for n, new in sorted(names.items()):
            print(n, new)
        return
    for p in files((".antt", ".rt", ".edit", ".md")):
        t = turned(p, names)
        if t != text(p):
            with open(p, "w", encoding="utf-8") as f:
                f.write(t)


if __name__ == "__main__":
    main()
