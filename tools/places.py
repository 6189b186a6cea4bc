#!/usr/bin/env python3
"""Lists the places of src/ that docs/DESIGN-PASS.md counts, by point: `python3 tools/places.py [POINT]` in a checkout's top; a line each, the count last.

What is counted is a pattern's hits, so a hit may stay with a reason; the page says which."""
import collections
import glob
import re
import sys

SOURCES = sorted(glob.glob("crates/*/src/*.rt"))


def crate(path):
    return path.split("/")[1]


def text_of(path):
    with open(path) as f:
        return f.read()


def lines_matching(pattern):
    for path in SOURCES:
        for number, line in enumerate(text_of(path).splitlines(), 1):
            if not line.lstrip().startswith("//") and re.search(pattern, line):
                yield f"{path}:{number}: {line.strip()}"


FUNCTION = re.compile(r"^( *)(?:pub(?:\(crate\))? )?(?:extern \"C\" )?fn (\w+)(.*?)^\1\}", re.S | re.M)


def functions():
    """Each function's path, name, head (signature and clauses) and body."""
    for path in SOURCES:
        text = re.sub(r"^\s*//.*\n", "", text_of(path), flags=re.M)
        for found in FUNCTION.finditer(text):
            indent, name, rest = found.group(1), found.group(2), found.group(3)
            parts = re.split(r"\n" + indent + r"\{\n|\{\n", rest, maxsplit=1) if "\n" + indent + "{\n" not in rest else rest.split("\n" + indent + "{\n", 1)
            yield path, name, parts[0], parts[1] if len(parts) > 1 else ""


def own_sums():
    """1: enums with a case for nothing or for a refusal; a bool beside values in a struct; named numbers of conditions."""
    for path in SOURCES:
        text = re.sub(r"//.*", "", text_of(path))
        for kind, name, body in re.findall(r"\b(enum|struct) (\w+)(?:<[^>]*>)? \{(.*?)\n\}", text, re.S):
            if kind == "enum" and re.search(r"^\s*(Refused|Absent|None|Not|Failed|Short|Passed|Other)\b", body, re.M):
                yield f"{path}: enum {name}"
            if kind == "struct" and re.search(r"\bbool,", body):
                yield f"{path}: struct {name} with a flag"
            if kind == "struct" and re.search(r"\b(status|Status)\b", body):
                yield f"{path}: struct {name} with a status beside"
    yield from lines_matching(r"^\s*(pub(\(crate\))? )?const [A-Z_]+: u(8|32) = \d+;")


def twins():
    """2: functions whose bodies are alike but for names, types and numbers."""
    seen = collections.defaultdict(list)
    for path, name, _, body in functions():
        bones = re.sub(r"[A-Za-z_]\w*(::\w+)*|\d[\d_]*|b'.'|b\"[^\"]*\"", "n", re.sub(r"\b(if|else|while|for|let|return|match|mut)\b", r"<\1>", body))
        bones = re.sub(r"\s+", " ", bones.replace("<n>", "<k>"))
        keep = re.sub(r"[A-Za-z_]\w*(::\w+)*|\d[\d_]*|b'.'", lambda m: m.group(0) if m.group(0) in ("if", "else", "while", "for", "let", "return", "match", "mut") else "n", body)
        keep = re.sub(r"\s+", " ", keep)
        if len(keep.split()) > 12:
            seen[keep].append(f"{path}: {name}")
    for names in seen.values():
        if len(names) > 1:
            yield " = ".join(names)


def index_loops():
    """3: loops that count an index by hand."""
    yield from lines_matching(r"^\s*while ")


def by_hand():
    """4: equality, order, conversion and printing in functions of their own."""
    for path, name, head, _ in functions():
        if re.match(r"(same_\w+|is_(start|end|line|last|zero|years|year_of)|at_most|less|wide|letter|compare|above|within|number|answer|count)$", name) and "->" in head:
            yield f"{path}: {name}"


def shared_facts():
    """5: a fact in the contracts of three functions or more of a crate; three parameters of one type each that travel together through three or more."""
    facts, groups = collections.defaultdict(set), collections.defaultdict(set)
    for path, name, head, _ in functions():
        for clause in re.findall(r"requires(?: \w+)? \{ (.*?) \}$", head, re.M):
            for fact in re.split(r" × ", clause):
                facts[crate(path), re.sub(r"\b(a|b|w|p|q|low|high)\b", "v", fact.strip("() "))].add(f"{name}")
        signature = re.sub(r"^<[^(]*>", "", head).split("ensures")[0].split("requires")[0]
        types = re.findall(r"(\w+): (&?(?:mut )?[\w\[\]<>; ]+)", signature)
        big = [f"{n}: {t}" for n, t in types if re.match(r"&?(mut )?[A-Z]", t)]
        for i in range(len(big)):
            for j in range(i + 1, len(big)):
                for k in range(j + 1, len(big)):
                    groups[crate(path), big[i], big[j], big[k]].add(name)
    for (where, fact), names in sorted(facts.items()):
        if len(names) > 2:
            yield f"{where}: {fact}: {', '.join(sorted(names))}"
    together = collections.defaultdict(set)
    for (where, *of), names in groups.items():
        if len(names) > 2:
            together[where, tuple(sorted(names))].update(of)
    for (where, names), of in sorted(together.items()):
        yield f"{where}: ({', '.join(sorted(of))}): {', '.join(names)}"


def counted_arrays():
    """6: an array with its length beside it."""
    for path in SOURCES:
        for name, body in re.findall(r"\bstruct (\w+)(?:<[^>]*>)? \{(.*?)\n\}", re.sub(r"//.*", "", text_of(path)), re.S):
            if re.search(r"\bcount: usize", body) and re.search(r": \[", body):
                yield f"{path}: struct {name}"
    for path, name, head, _ in functions():
        if re.search(r"\b(n|count|done): usize", head) and re.search(r"&(mut )?\[u8", head):
            yield f"{path}: {name}"


def switches():
    """7: a step, a number or a flag that says what to run."""
    for path, name, head, _ in functions():
        if re.search(r"\b(step|first|operation|capped|tested|up): (Step|usize|bool)\b", head):
            yield f"{path}: {name}"


def proofs():
    """8: lines of proofs by crate."""
    lines = collections.Counter()
    for path in glob.glob("crates/*/proofs/**/*.antt", recursive=True):
        lines[crate(path)] += text_of(path).count("\n")
    for where, n in sorted(lines.items()):
        yield f"{where}: {n}"
    yield f"all: {sum(lines.values())} lines, {len(glob.glob('crates/*/proofs/**/Answers.antt', recursive=True))} files of answers"


POINTS = [own_sums, twins, index_loops, by_hand, shared_facts, counted_arrays, switches, proofs]

for point, places in enumerate(POINTS, 1):
    if len(sys.argv) < 2 or sys.argv[1] == str(point):
        found = list(places())
        print(f"== {places.__doc__}")
        print("\n".join(found))
        print(f"point {point}: {len(found)}")
