#!/usr/bin/env python3
"""Turns proofs that walk the code by hand (Proof.antt) into answers to the goals that the check prints (Invariants.antt, Answers.antt).

usage: tools/port_proofs.py NAMES CRATE..    in the repository's top; NAMES/CRATE/names.json is what
                                             `rattle check --generated NAMES/CRATE --old-names` wrote of the crate

A walk names its goals in the order of tie.spec, and cites a fact by how many steps it lies before. An answer has the goal's name and cites a
fact by its step. Goals that were left to `search rules` get no answer. What can't be turned is printed, and its Proof.antt stays.
"""

import difflib
import json
import os
import re
import sys

IDENT = r"[\w'₀-₉ₐ-ₜκλ◌-]+"
CHAIN = re.compile(rf"(?<![\w'.«-])({IDENT})((?:\.(?:«[^»]+»|[\w'◌-]+))*)")
START = {"args", "requires", "ranges", "utf8", "type_inv"}


def norm(name):
    name = re.sub(r"-lem(?=$|-\d)", "", name.lower().replace("_", "-")).replace("is-isword", "is-word")
    name = re.sub(r"^(overflow|nonzero)-", "", name)
    return name.replace("array-read", "element-copy-out")


class Odd(Exception):
    pass


def clause_names(root):
    """The names of what each function ensures, where there is more than one clause."""
    found = {f"core::num::wrapping_{op}_{t}": ["value"] for op in ("add", "sub") for t in ("u8", "u16", "u32", "u64", "usize")}
    for folder, _, files in os.walk(os.path.join(root, "crates")):
        m = re.search(r"/crates/(\w+)/src(.*)$", folder)
        for n in files if m else []:
            if not n.endswith(".rt"):
                continue
            path = [m[1], *m[2].strip("/").split("/"), *([] if n in ("lib.rt", "main.rt") else [n[:-3]])]
            with open(os.path.join(folder, n), encoding="utf-8") as f:
                text = f.read()
            for fn in re.finditer(r"\bfn (\w+)", text):
                ends = [e for e in (text.find("\n{", fn.end()), text.find("\n    {", fn.end())) if e > 0]
                names = re.findall(r"\bensures\*?(?: (\w+))? \{", text[fn.end() : min(ends)]) if ends else []
                if len(names) > 1:
                    found["::".join([*[it for it in path if it], fn[1]])] = names
    return found


CLAUSES = {}


def tupled(body, names):
    """A pair for several clauses, as a record with their names."""
    t = body.rstrip()
    if t.endswith(")"):
        deep = 0
        for k in range(len(t) - 1, -1, -1):
            deep += (t[k] == ")") - (t[k] == "(")
            if not deep:
                break
        inner, parts, last, deep = t[k + 1 : -1], [], 0, 0
        for i, ch in enumerate(inner):
            deep += (ch in "([{") - (ch in ")]}")
            if ch == "," and not deep:
                parts.append(inner[last:i])
                last = i + 1
        parts.append(inner[last:])
        parts = [it.strip() for it in parts if it.strip()]
        if len(parts) == len(names) and re.search(r"(=|(?<!\S)in)\s*$|(?<!\S)rw [^\n]*$", "=" + t[:k]):
            return t[:k] + "record { " + "; ".join(f"{n} = {it}" for n, it in zip(names, parts)) + " }"
    at = re.search(r"^(.*(?<!\S)in(?!\S))(?!.*(?<!\S)in(?!\S))\s*(.*)$", "in " + t, re.S)
    last = at[2]
    head = at[1][3:] if at[1] != "in" else ""
    return head + f"\n    let both = {last} in record {{ " + "; ".join(f"{n} = both.{i}" for i, n in enumerate(names)) + " }"


class Function:
    def __init__(self, names):
        self.names = names
        self.parent, self.step, self.arm = {}, {}, {}
        for (place, parent, (old, new), *_), arm in zip(names["places"], names["arms"]):
            self.parent[place] = parent
            self.step[place] = (old, new)
            self.arm[place] = arm
        self.loops = names["loops"]
        self.calls = {new: callee for _, _, (_, new), callee, *_ in names["places"] if callee}

    def in_arm(self, place, fields):
        """How an answer cites what a walk found at the arm of a match."""
        step = norm(fields[0].strip("«»"))
        while place is not None:
            arm = self.arm.get(place)
            best = None
            for field, old, path in arm[2] if arm else []:
                if norm(old) == step and fields[1 : 1 + len(path)] == path and (best is None or len(path) > len(best[1])):
                    best = field, path
            if best:
                return ".".join(["c", arm[0], best[0], *fields[1 + len(best[1]) :]])
            place = self.parent.get(place)
        return None

    def steps(self, place):
        """Old step names on the way to a place, the nearest first, with their new names."""
        found = {}
        while place is not None:
            old, new = self.step.get(place, ("", ""))
            if old and norm(old) not in found:
                found[norm(old)] = new
            place = self.parent.get(place)
        return found


def blocks(text):
    return [b for b in re.split(r"\n\s*\n", text.strip("\n"))]


def parted(block):
    """A block's comment lines and its code."""
    lines = block.split("\n")
    k = 0
    while k < len(lines) and lines[k].startswith("--"):
        k += 1
    return lines[:k], "\n".join(lines[k:])


def turn_chains(code, steps, arms, calls, aliases, odd):
    def one(m):
        head, tail = m[1], m[2]
        if head != "c" and head not in aliases:
            return m[0]
        fields = re.findall(r"\.(«[^»]+»|[\w'◌-]+)", tail)
        while fields and fields[0] == "before":
            fields.pop(0)
        if not fields:
            return "\0place"
        f = fields[0].strip("«»")
        if f in START:
            return "c." + ".".join(fields)
        fields = ["type_inv" if it == "type-inv" else it for it in fields]
        arm = arms(fields)
        if arm:
            return arm
        new = "well_formed-2" if norm(f) == "well-formed-2" else steps.get(norm(f)) or steps.get(re.sub(r"-2$", "", norm(f)))
        if new is None and f == "pre":
            return "c.requires" + "".join("." + it for it in fields[1:])
        if new is None:
            odd.append(f)
            return "c." + ".".join(fields)
        rest = fields[1:]
        names = CLAUSES.get(calls.get(new), []) if rest[:1] == ["ensures"] else []
        if names and len(rest) > 1 and rest[1].isdigit() and len(names) > 1:
            rest[1] = names[int(rest[1])]
        elif len(names) == 1 and len(rest) == 1:
            rest.append(names[0])
        elif names and len(rest) == 1:
            return "(" + ", ".join(f"c.{new}.ensures.{it}" for it in names) + ")"
        return "c." + ".".join([new, *rest])

    return CHAIN.sub(one, code)


def turn_body(code, steps, arms, calls, odd):
    """The clauses behind a signature, with facts cited by their steps."""
    aliases = set()
    out, rest = [], code
    while True:
        # Only a let whose value is one chain is an alias or a shortened path.
        m2 = re.search(rf"([ \t]*)\blet ({IDENT}) = ({IDENT}(?:\.(?:«[^»]+»|[\w'◌-]+))*) in([ ]*\n?)", rest)
        if not m2:
            out.append(turn_chains(rest, steps, arms, calls, aliases, odd))
            break
        out.append(turn_chains(rest[: m2.start()], steps, arms, calls, aliases, odd))
        value = turn_chains(m2[3], steps, arms, calls, aliases, odd)
        if value == "\0place":
            aliases.add(m2[2])
            out.append(m2[1] if not m2[4].endswith("\n") else "")
        else:
            aliases.discard(m2[2])
            out.append(f"{m2[1]}let {m2[2]} = {value} in{m2[4]}")
        rest = rest[m2.end() :]
    # A tactic finds what the types say by itself.
    text = re.sub(r",\s*c\.well-formed(?=[,)])", "", "".join(out))
    odd[:] = [f for f in odd if f != "well-formed" or "c.well-formed" in text]
    if "\0place" in text:
        odd.append("a place by itself")
    return text.replace("\0place", "c")


def turn_invariant(code, name, new, variables, changed):
    """An invariant's clause over a record of the variables."""
    m = re.match(rf"(?:{re.escape(name)})((?: {IDENT})*) =(.*)", code, re.S)
    if not m:
        raise Odd("an invariant with a pattern")
    given = m[1].split()
    # The old order: what each variable was, where it changes, and the others as they are; then what each is now.
    first, last = [], []
    for v, c in zip(variables, changed):
        first.append(f"l.initial.{v}" if c else f"l.{v}")
        if c:
            last.append(f"l.{v}")
    order = first + last
    if len(given) != len(order):
        raise Odd(f"{name} takes {len(given)}, the loop has {len(order)}")
    to = {g: o for g, o in zip(given, order) if g != "_"}
    # A variable that a λ or a let binds hides a parameter; such a file is looked at by hand.
    body = re.sub(rf"(?<![\w'.«-])({IDENT})", lambda k: to.get(k[1], k[1]), m[2])
    return f"{new} l ={body}"


def turn(path, crate, names, root):
    with open(path, encoding="utf-8") as f:
        text = f.read()
    rel = os.path.relpath(os.path.dirname(path), os.path.join(root, "crates", crate, "proofs"))
    key = f"Rattle-{crate}-proofs." + rel.replace("/", ".") + ".Lts"
    if key not in names:
        raise Odd(f"no names for {key}")
    fn = Function(names[key])
    m = re.search(r"\(tie\.spec\b([^)]*)\)", text)
    m = m or re.search(r"\btie\.spec\b([^)]*)", text)
    spec = m[1].split()
    heads, uses, goals, own = [], [], {}, []
    for b in blocks(text):
        lines = b.split("\n")
        while lines and (lines[0].startswith("use ") or (lines[0].startswith("--") and any(l.startswith("use ") for l in lines))):
            (uses if lines[0].startswith("use ") else heads).append(lines.pop(0))
            while lines and uses and uses[-1].count("{") > uses[-1].count("}"):
                uses[-1] += "\n" + lines.pop(0)
        b = "\n".join(lines)
        if not b.strip():
            continue
        comment, code = parted(b)
        if not code:
            heads += comment
            continue
        sig = re.match(rf"((?:abbrev |pub |unfoldable )*)({IDENT}) :(.*?)(?=^unfolding |^{IDENT}(?: |$))", code, re.S | re.M)
        if not sig:
            raise Odd("a block: " + code[:60])
        name, kind = sig[2], sig[3].strip()
        if "tie.spec" in code:
            continue
        t = re.match(rf"tie\.({IDENT})", kind)
        if t:
            goals[name] = (t[1], comment, code[sig.end() :])
        else:
            own.append((name, b))
    spec_goals = [n for n in spec if n in goals and goals[n][0].startswith("Need-")]
    loops = [n for n in spec if n in goals and not goals[n][0].startswith("Need-")]
    if len(spec_goals) + len(loops) != len(spec):
        raise Odd(f"tie.spec takes what is no goal: {[n for n in spec if n not in goals]}")
    needs = fn.names["needs"]
    at = fn.names["asked_at"]
    if len(needs) == len(spec_goals):
        pairs = list(zip(spec_goals, range(len(needs))))
    else:
        a = [norm(goals[n][0][5:]) for n in spec_goals]
        b = [norm(o) for o, _ in needs]
        pairs, used = [], set()
        for block in difflib.SequenceMatcher(None, a, b, autojunk=False).get_matching_blocks():
            for k in range(block.size):
                pairs.append((spec_goals[block.a + k], block.b + k))
                used.add(block.a + k)
        lost = [spec_goals[k] for k in range(len(a)) if k not in used and not re.search(r"=\s*search rules\s*$", goals[spec_goals[k]][2])]
        if lost:
            print(f"look: {path}: {len(spec_goals)} goals, now {len(needs)}; no goal for {lost}; now also {[needs[k] for k in range(len(b)) if k not in {j for _, j in pairs}][:8]}")
    answers, odd = [], []
    for n, j in pairs:
        _, comment, code = goals[n]
        if re.fullmatch(rf"\s*{re.escape(n)} c(?: {IDENT})* =\s*search rules\s*", code):
            continue
        new = needs[j][1]
        steps = fn.steps(at[j][0])
        lines = code.strip("\n").split("\n")
        pre = []
        while lines and lines[0].startswith("unfolding "):
            pre.append(lines.pop(0))
            while lines and not re.match(rf"{re.escape(n)}\b", lines[0]):
                pre.append(lines.pop(0))
        clause = "\n".join(lines)
        m = re.match(rf"{re.escape(n)} c((?: {IDENT})*) =", clause)
        if not m:
            raise Odd(f"{n}: {clause[:60]}")
        # A walk names the lifetimes of a call; an answer does not. What a clause takes it takes in both.
        more = m[1].replace(" κs", "")
        mine = []
        body = turn_body(clause[m.end() :], steps, lambda fields: fn.in_arm(at[j][0], fields), fn.calls, mine)
        odd += [f"{new}: no step {f}" for f in mine]
        named = CLAUSES.get("::".join([crate, *rel.split("/")]), [])
        if named and goals[n][0].startswith("Need-returns"):
            body = tupled(body, named)
        answers.append("\n".join([*comment, f"pub {new} : goal.{new}", *pre, f"{new} c{more} ={body}"]))
    invariants = []
    for n in loops:
        kind, comment, code = goals[n]
        which = norm(re.sub(r"^(invariant|decreases)-", "", kind))
        for ((old, new), variables), changed in zip(fn.loops, fn.names["changed"]):
            if norm(old) == which:
                full = kind.split("-")[0] + "-" + new
                pre = ""
                clause = code.strip("\n")
                while clause.startswith("unfolding "):
                    line, clause = clause.split("\n", 1)
                    pre += line + "\n"
                invariants.append("\n".join([*comment, f"abbrev pub {full} : goal.{full}", pre + turn_invariant(clause, n, full, variables, changed)]))
                break
        else:
            raise Odd(f"no loop for {kind}")
    for o in odd:
        print(f"look: {path}: {o}")
    kept = [u for u in uses if not re.search(r"\.(Statement\.\{statement\}|Tie as tie)$", u.strip())]
    module = f"Rattle.{crate}.proofs." + rel.replace("/", ".")
    folder = os.path.dirname(path)
    if invariants:
        with open(os.path.join(folder, "Invariants.antt"), "w", encoding="utf-8") as f:
            f.write("\n".join([*heads, *kept, f"use {module}.Given as goal"]) + "\n\n" + "\n\n".join(invariants) + "\n")
    if answers:
        with open(os.path.join(folder, "Answers.antt"), "w", encoding="utf-8") as f:
            f.write("\n".join([*heads, *kept, f"use {module}.Goals as goal"]) + "\n\n" + "\n\n".join([b for _, b in own] + answers) + "\n")
    os.remove(path)
    if not os.listdir(folder):
        os.rmdir(folder)
    return len(answers), len(pairs)


def main(argv):
    root = os.getcwd()
    total = kept = 0
    CLAUSES.update(clause_names(root))
    for crate in argv[1:]:
        with open(os.path.join(argv[0], crate, "names.json"), encoding="utf-8") as f:
            names = json.load(f)
        for folder, _, files in sorted(os.walk(os.path.join(root, "crates", crate, "proofs"))):
            if "Proof.antt" in files:
                path = os.path.join(folder, "Proof.antt")
                try:
                    a, b = turn(path, crate, names, root)
                    total, kept = total + b, kept + a
                except Odd as e:
                    print(f"left: {path}: {e}")
    print(f"{kept} answers of {total} goals")


main(sys.argv[1:])
