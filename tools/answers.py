#!/usr/bin/env python3
"""Turns proofs that walk the code by hand (Proof.antt) into answers and invariants (Answers.antt, Invariants.antt), as far as text can.

usage: python3 tools/answers.py NAMES CRATE..       at the top of the repository; NAMES is the folder that `rt names NAMES` wrote

What said no more than `search rules` goes, since the check tries that by itself. Names of goals and steps become today's. The rest is for
the check to judge.
"""

import json
import os
import re
import sys

PATH = re.compile(r"[^\W\d][\w'′-]*(?:\.[\w'′-]+)+")
WORD = r"[^\W\d][\w'′-]*"
plain = lambda s: re.sub(r"[-_]+", "-", s)


def items(text):
    """The blocks between blank lines, each whole."""
    return [b for b in re.split(r"\n\n+", text.strip("\n")) if b.strip()]


class Function:
    def __init__(self, known, crate, where):
        self.known, self.crate, self.where = known, crate, where
        self.needs = {}
        for old, new in known["needs"]:
            self.needs.setdefault(plain(old), new)
        self.goals = {new: i for i, (_, new) in enumerate(known["needs"])}
        self.places = {plain(p[0]): n for p, n in zip(known["places"], known["places_by_name"])}
        self.steps, self.fields = {}, {}
        for at, (place, _, (old, new), _, fields) in enumerate(known["places"]):
            if old:
                self.steps.setdefault(plain(old), new)
                self.fields.setdefault(plain(old), {}).update({o: n for o, n in fields})
                said = known["clauses"][at]
                if said and len(said["fields"]) > 1:
                    self.fields[plain(old)]["ensures"] = said["fields"]
        self.all_arms = {}
        for place, arm in zip(known["places"], known["arms"]):
            if arm:
                for new, old, path in arm[2]:
                    if path:
                        self.all_arms.setdefault(place[0], []).append(([old, *path], [arm[0], new]))
        self.parents = {p[0]: p[1] for p in known["places"]}
        self.callees = {plain(p[2][0]): p[3] for p in known["places"] if p[2][0] and p[3]}
        self.at = {new: old for (_, new), (old, _) in zip(known["needs"], known["asked_at"])}
        self.step_at = {p[0]: p[2] for p in known["places"]}
        self.every_step = dict(self.steps)
        self.scope(None)
        self.pre = known["pre"]["fields"] if known["pre"] and len(known["pre"]["fields"]) > 1 else None
        self.args = {}
        for old, new in known["args"]:
            self.args[tuple(old.strip(".").split(" ."))] = tuple(new.strip(".").split(" ."))

    def scope(self, goal):
        """Takes the arms and steps that lie on the way to this goal, or all."""
        place, way = self.at.get(goal), []
        while place:
            way.append(place)
            place = self.parents.get(place)
        if not way:
            way = list(self.parents)
        self.arms = [a for p in way for a in self.all_arms.get(p, [])]
        self.arms.sort(key=lambda a: -len(a[0]))
        self.steps = dict(self.every_step)
        for p in reversed(way):
            old, new = self.step_at[p]
            if old:
                self.steps[plain(old)] = new

    def picked(self, parts, names):
        """`1 1 0 rest` as the clause that it picks."""
        n, i = 0, 0
        while i < len(parts) and parts[i] == "1" and n < len(names) - 1:
            n, i = n + 1, i + 1
        if n < len(names) - 1:
            if i < len(parts) and parts[i] == "0":
                return [names[n], *parts[i + 1 :]]
            return None
        return [names[n], *parts[i:]]

    def path(self, text, contexts):
        parts = text.split(".")
        head, rest = parts[0], parts[1:]
        if head not in contexts and "before" not in rest:
            return text
        rest = [p for p in rest if p != "before"]
        if not rest:
            return head if head in contexts else text
        early = {"fits": "ranges", "pre": "requires", "well-formed": "well_formed"}
        rest[0] = early.get(rest[0], rest[0])
        if len(rest) > 1 and re.match(r"if\d+$", rest[0]):
            rest[1] = {"taken": "true", "left": "false"}.get(rest[1], rest[1])
        if tuple(rest[:2]) in self.args:
            rest[:2] = self.args[tuple(rest[:2])]
        if rest[0] == "requires" and self.pre:
            got = self.picked(rest[1:], self.pre)
            if got:
                rest = ["requires", *got]
            return ".".join([head, *rest])
        for old, new in self.arms:
            if [plain(p) for p in rest[: len(old)]] in ([plain(p) for p in old], [plain(old[0] + "_lem"), *[plain(p) for p in old[1:]]]):
                return ".".join([head, *new, *rest[len(old) :]])
        step = plain(rest[0])
        if step not in self.steps and step.endswith("-lem"):
            step = step[:-4]
        if step in self.steps:
            fields = self.fields[step]
            new = [self.steps[step], *rest[1:]]
            if len(rest) > 1:
                if rest[1] == "ensures" and isinstance(fields.get("ensures"), list):
                    got = self.picked(rest[2:], fields["ensures"])
                    if got:
                        new = [self.steps[step], "ensures", *got]
                elif isinstance(fields.get(rest[1]), str):
                    new[1] = fields[rest[1]]
            return ".".join([head, *self.lent(new, rest[0])])
        return ".".join([head, *rest])

    def lent(self, new, old):
        """What a call leaves in a `&mut` argument, by the name of its parameter."""
        if len(new) > 2 and new[1] in ("new", "auto") and new[2].isdigit():
            step = plain(old)
            callee = self.callees.get(step) or self.callees.get(step[:-4] if step.endswith("-lem") else step)
            names = LENT.get(callee or "", [])
            if int(new[2]) < len(names):
                new[2] = names[int(new[2])]
        return new

    def body(self, text):
        aliases = {"c": []}
        for m in re.finditer(rf"let ({WORD}) = ({WORD})((?:\.[\w'′-]+)*) in", text):
            if m[2] in aliases:
                aliases[m[1]] = aliases[m[2]] + [p for p in m[3].split(".")[1:] if p != "before"]
        full = lambda rest: self.path(".".join(["c", *rest]), {"c"}).split(".")[1:]

        def one(m):
            head, *rest = m[0].split(".")
            if head not in aliases:
                return ".".join([head, *[p for p in rest if p != "before"]]) if "before" in rest else m[0]
            rest = [p for p in rest if p != "before"]
            if not rest:
                return head
            new, prefix = full(aliases[head] + rest), full(aliases[head]) if aliases[head] else []
            if new[: len(prefix)] == prefix:
                return ".".join([head, *new[len(prefix) :]])
            return ".".join(["c", *new])

        text = PATH.sub(one, text)
        text = text.replace(".type-inv", ".type_inv")
        text = re.sub(r"\.(in_default[\w'-]*)\.rest\b", r".\1.\1-own.rest", text)
        text = text.replace("to_z-of_z (record", "to_z-of_z {w = w32} (record")
        text = re.sub(rf"tie\.({WORD})(?: invariant-loop decreases-loop)?", lambda m: "goal." + self.places.get(plain(m[1]), m[1]), text)
        return text

    def distance(self, goal, place):
        at, n = self.at.get(goal), 0
        while at and plain(at) != plain(place):
            at, n = self.parents.get(at), n + 1
        return n if at else 0


LENT = {}


def lent():
    for crate in os.listdir("crates"):
        top = os.path.join("crates", crate, "src")
        for at, _, names in os.walk(top):
            for n in names:
                with open(os.path.join(at, n), encoding="utf-8") as f:
                    src = f.read()
                module = os.path.relpath(os.path.join(at, n), top)[:-3].split(os.sep)
                module = [m for m in module if m not in ("lib", "main", "mod")]
                for m in re.finditer(r"fn (\w+)\s*(?:<[^>]*>)?\(([^)]*)\)", src):
                    mut = re.findall(r"(\w+)\s*:\s*&(?:'\w+ )?mut", m[2])
                    if re.search(r"&(?:'\w+ )?mut self", m[2]):
                        mut = ["self", *mut]
                    LENT["::".join([crate, *module, m[1]])] = mut


def parts_of(text):
    """The parts of a bracket between its commas."""
    deep, out, at = 0, [], 0
    for i, ch in enumerate(text):
        deep += (ch in "([{") - (ch in ")]}")
        if ch == "," and not deep:
            out.append(text[at:i].strip())
            at = i + 1
    return [p for p in [*out, text[at:].strip()] if p]


def named(text, names):
    """A tuple at the end of the text as a record with these names."""
    end = text.rstrip()
    if not end.endswith(")"):
        return text
    deep, i = 0, len(end)
    while i:
        i -= 1
        deep += (end[i] == ")") - (end[i] == "(")
        if not deep:
            break
    before = end[:i].rstrip()
    if not (before.endswith("=") or before.endswith(" in") or before.endswith("\nin") or re.search(r"(= |in |\n *|= *\n *)(rw|simp) [^\n]*$", before)):
        return text
    got = [end[i:]]
    while len(got) < len(names):
        last = got[-1]
        if not (last.startswith("(") and last.endswith(")")):
            return text
        p = parts_of(last[1:-1])
        if len(p) < 2:
            return text
        got[-1:] = p if len(p) == len(names) - len(got) + 1 else [p[0], "(" + ", ".join(p[1:]) + ")" if len(p) > 2 else p[1]]
    return end[:i] + "record { " + "; ".join(f"{n} = {e}" for n, e in zip(names, got)) + " }"


def loops(fn, item, number):
    """An invariant or a measure, over the record of the variables."""
    m = re.match(r"(?:abbrev |unfoldable )?(invariant|decreases)-(loop\S*) : .*\n(\S+)((?: \S+)*) =", item)
    old, variables = fn.known["loops"][number]
    changed = fn.known["changed"][number] if number < len(fn.known["changed"]) else [True] * len(variables)
    new = old[1]
    args = m[4].split()
    moved = [v for v, is_moved in zip(variables, changed) if is_moved]
    initial = [f"l.initial.{v}" if is_moved else f"l.{v}" for v, is_moved in zip(variables, changed)]
    values = [*initial, *[f"l.{v}" for v in moved]]
    if len(values) != len(args):
        return None
    to = {a: v for a, v in zip(args, values) if a != "_"}
    body = item[m.end() :]
    body = re.sub(rf"(?<![\w.'-]){WORD}(?:₀)?", lambda w: to.get(w[0], w[0]), body)
    return f"abbrev pub {m[1]}-{new} : goal.{m[1]}-{new}\n{m[1]}-{new} l ={body}"


def turn(names, crate, folder):
    path = os.path.join("crates", crate, "proofs", folder, "Proof.antt")
    with open(path, encoding="utf-8") as f:
        text = f.read()
    key = f"Rattle-{crate}-proofs.{folder.replace('/', '.')}.Lts"
    if key not in names:
        print(f"{path}: no names")
        return
    fn = Function(names[key], crate, folder)
    blocks = items(text)
    head = []
    lines = blocks[0].split("\n")
    uses = [i for i in lines if i.startswith("use ") or i.startswith("pub use ")]
    comment = [i for i in lines if i.startswith("--")]
    rest = [i for i in lines if i not in uses and i not in comment]
    blocks = (["\n".join(rest)] if any(i.strip() for i in rest) else []) + blocks[1:]
    uses = [u for u in uses if not u.endswith(".Statement.{statement}") and not u.endswith(" as tie")]
    module = f"Rattle.{crate}.proofs.{folder.replace('/', '.')}"
    answers, invariants, renamed, said = [], [], {}, 0
    count = {"invariant": 0, "decreases": 0}
    # first the names
    todo = []
    for b in blocks:
        m = re.search(rf"^(?:pub )?({WORD}) : tie\.Need-({WORD}(?:-[\w'′-]+)*)", b, re.M)
        k = re.match(r"(?:abbrev |unfoldable )?(invariant|decreases)-loop", b)
        if re.match(r"pub \S+ : \{M : Type 1\}", b) or re.match(r"pub \S+ : statement", b):
            continue
        if k and ": tie." in b:
            got = loops(fn, b, count[k[1]])
            count[k[1]] += 1
            if not got:
                print(f"{path}: a loop's variables are others: {fn.known['loops']} {fn.known['changed']}")
                got = "-- TODO " + b.replace("\n", "\n-- ")
            invariants.append(got)
            continue
        if m:
            old = plain(m[2])
            new = fn.needs.get(old)
            for cut in ("overflow-", "slice-bounds-", "nonzero-", "overflow-step-"):
                if not new and old.startswith(cut):
                    new = fn.needs.get(old[len(cut) :])
                    new = new or fn.needs.get("part-" + old[len(cut) :])
            if not new:
                new = fn.needs.get(plain(m[1]))
            if not new:
                loop = {"loop-init": "loop-holds", "loop-preserved": "loop-again", "loop-smaller": "loop-less"}
                for a, o in loop.items():
                    if old.startswith(a):
                        new = fn.needs.get(o + old[len(a) :])
            if not new:
                if "unfolding" in b or not re.search(r"= search rules$", b):
                    print(f"{path}: {m[2]}: no such goal; {[p for p in names[key]['needs']]}")
                    todo.append((b, m[1], None))
                continue
            if "unfolding" not in b and re.search(r"^\S+ c(?: κs)? = search rules$", b, re.M):
                continue
            todo.append((b, m[1], new))
        else:
            todo.append((b, None, None))
    helpers = {}
    for b, old, new in todo:
        h = not old and re.search(rf"^(?:pub )?({WORD}) : \(c : tie\.({WORD})", b, re.M)
        if h:
            helpers[h[1]] = h[2]
    for b, old, new in todo:
        fn.scope(new)
        b = fn.body(b)
        for h, place in helpers.items():
            if new:
                b = re.sub(rf"(?<![\w.'-]){h} c(?![\w.'-])", f"{h} c" + ".before" * fn.distance(new, place), b)
        if new:
            b = re.sub(rf"^(?:pub )?{re.escape(old)} : tie\.\S+.*$|^(?:pub )?{re.escape(old)} : goal\.\S+.*$", f"pub {new} : goal.{new}", b, count=1, flags=re.M)
            b = re.sub(rf"^{re.escape(old)} c(?: κs)?( |$)", rf"{new} c\1", b, flags=re.M)
            asked = fn.known["asked"].get({n: o for o, n in fn.known["needs"]}[new])
            if asked and len(asked) > 1:
                b = named(b, asked)
        elif old:
            b = "-- TODO " + b.replace("\n", "\n-- ")
        answers.append(b)
    out = os.path.dirname(path)
    os.remove(path)
    doc = "\n".join(comment)
    if invariants:
        with open(os.path.join(out, "Invariants.antt"), "w", encoding="utf-8") as f:
            f.write("\n".join([doc, *uses, f"use {module}.Given as goal"]) + "\n\n" + "\n\n".join(invariants) + "\n")
    if any("w = w32" in b for b in answers) and not any(re.search(r"\bw32\b", u) for u in uses):
        uses.append("use mir.Syntax.{w32}")
    if answers:
        with open(os.path.join(out, "Answers.antt"), "w", encoding="utf-8") as f:
            f.write("\n".join([doc, *uses, f"use {module}.Goals as goal"]) + "\n\n" + "\n\n".join(answers) + "\n")
    if not answers and not invariants and not os.listdir(out):
        os.rmdir(out)


def main():
    to = sys.argv[1]
    lent()
    for crate in sys.argv[2:]:
        with open(os.path.join(to, "crates", crate, "names.json"), encoding="utf-8") as f:
            names = json.load(f)
        top = os.path.join("crates", crate, "proofs")
        for at, _, files in os.walk(top):
            if "Proof.antt" in files:
                turn(names, crate, os.path.relpath(at, top))


if __name__ == "__main__":
    main()
