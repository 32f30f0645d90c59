#!/usr/bin/env python3
"""Spells this repository's own names of specs/ and proofs/ in snake case, once, right after the kit's port.py.

usage: tools/port_names.py LIBRARY TABLE    in the repository's top; LIBRARY is the kit's folder, whose own names stay as they are; TABLE gets
what was turned, a line each

A name is turned where it begins with a small letter and has a dash or a capital inside: thenTold is then_told, refused-word is refused_word.
It stays where the file imports it from a library of the kit, or where the kit alone declares it. Types, modules, Rust's names, strings and
comments of src/ stay. A name with a dash that would get the name of a function gets _lem behind it.
"""

import os
import re
import sys

TOKEN = re.compile(r"(?<![\w'◌\-«/])[a-zα-ω][\w'₀-₉]*(?:-[\w'₀-₉]+)*(?![\w◌»])")
HEAD = re.compile(r"(?m)^[ \t]*(?:(?:abbrev|unfoldable|pub|priv|opaque|infix\w*|let|in) )*([^\s:(){}=]+(?: [^\s:(){}=]+)*)(?:[ \t]*[{(][^:={}()]*[:}][^={}()]*[})])*[ \t]*:[ \t\n]")
USE = re.compile(r"(?m)\buse ([^\s;{]+?)(?:\.\{([^}]*)\})?(?: as ([^\s;]+))?[ \t]*(?:;|$)")
# Lemmas that would get the name of a function: as the kit's rule says, they get _lem.
APART = set()
# What port.py spelled like that function before, and an alias that meets a theorem: file (an ending), old, new.
BEFORE = [
    ("lessees/proofs/Folding.antt", "told_more", "told_more_lem"),
    ("proofs/Known.antt", "on_line", "on_line_lem"),
    ("demands/proofs/Numbers.antt", "on_line", "on_line_lem"),
    ("conditional/proofs/Surveys.antt", "in_order", "in_order_lem"),
    ("demands/proofs/Numbers.antt", "in_order", "in_order_lem"),
    ("demands/proofs/Writing.antt", "on_line", "on_line_lem"),
    ("registers/proofs/Copying.antt", "is-nan", "is_nan_lem"),
    ("", "flowStep", "stepOfFlow"),
]


def ours(path, crates):
    parts = path.split(".")
    return parts[0] == "Rattle" and len(parts) > 1 and parts[1] in crates


def is_odd(name):
    return ("-" in name or re.search(r"[a-z0-9'₀-₉][A-Z]", name)) and re.match(r"[a-zα-ω]", name)


def snake(name):
    return plain(name) + ("_lem" if name in APART else "")


def plain(name):
    return re.sub(r"(?<=[a-z0-9'₀-₉])[A-Z]", lambda m: "_" + m[0].lower(), name).replace("-", "_")


def bare(text):
    """The text without comments, of the same length."""
    return re.sub(r"--[^\n]*", lambda m: " " * len(m[0]), text)


def heads(text):
    found = set()
    for m in HEAD.finditer(text):
        found.update(m[1].split())
    return found


def declared(text):
    return {w for w in heads(text) if is_odd(w)}


def imports(text, crates):
    """What the file imports: of this repository, and of the kit."""
    mine, kits = set(), set()
    for m in USE.finditer(text):
        names = set()
        for it in (m[2] or "").split(","):
            words = it.split()
            if words:
                names.add(words[0])
                if len(words) == 3:
                    mine.add(words[2])
        if m[3]:
            mine.add(m[3])
        (mine if ours(m[1], crates) else kits).update(names)
    return mine, kits


def files(root):
    for folder, dirs, names in os.walk(os.path.join(root, "crates")):
        dirs[:] = sorted(d for d in dirs if d != "out")
        for n in sorted(names):
            yield os.path.join(folder, n)


def clauses(text):
    """The spans of a .rt file that hold antt."""
    blank = re.sub(r"//[^\n]*", lambda m: " " * len(m[0]), text)
    for m in re.finditer(r"ghost use [^;]*;", blank):
        yield m.start(), m.end()
    for m in re.finditer(r"\b(?:requires|ensures|ghost)\b[^{};]*\{", blank):
        if blank.startswith("ghost use", m.start()):
            continue
        deep, i = 1, m.end()
        while deep and i < len(blank):
            deep += (blank[i] == "{") - (blank[i] == "}")
            i += 1
        yield m.end(), i


def move_log(root):
    """The kit has a library named log: the crate of that name is station_log."""
    crates = os.path.join(root, "crates")
    os.rename(os.path.join(crates, "log"), os.path.join(crates, "station_log"))
    for p in [*files(root), os.path.join(root, "crates.txt")]:
        with open(p, encoding="utf-8") as f:
            t = f.read()
        if p.endswith("crates.txt"):
            new = re.sub(r"(?m)^(?!#)(.*)$", lambda m: re.sub(r"\blog\b", "station_log", m[0]), t)
        elif p.endswith((".antt", ".rt", ".edit")):
            new = re.sub(r"\bRattle\.log(?=\.)", "Rattle.station_log", t)
            new = re.sub(r"(?<![\w:.])log::", "station_log::", new) if not p.endswith(".antt") else new
            new = re.sub(r"(?m)^use log;", "use station_log;", new)
        else:
            continue
        if new != t:
            with open(p, "w", encoding="utf-8") as f:
                f.write(new)


def main(argv):
    root, kit = os.getcwd(), argv[0]
    move_log(root)
    crates = set(os.listdir(os.path.join(root, "crates")))
    library = set()
    for folder, _, names in os.walk(kit):
        for n in names:
            if n.endswith(".antt"):
                with open(os.path.join(folder, n), encoding="utf-8", errors="replace") as f:
                    library |= declared(bare(f.read()))
    texts = {}
    for p in files(root):
        if p.endswith((".antt", ".rt", ".edit")):
            with open(p, encoding="utf-8") as f:
                texts[p] = f.read()
            for end, old, new in BEFORE:
                if p.endswith(".antt") and (p.endswith(end)):
                    texts[p] = re.sub(rf"(?<![\w'.-]){re.escape(old)}(?![\w'-])", new, texts[p])
    walks = {p for p in texts if p.endswith("/Proof.antt")}
    own, plainly = set(), set()
    for p, t in texts.items():
        if p.endswith(".antt") and p not in walks:
            own |= declared(bare(t))
            plainly |= {w for w in heads(bare(t)) if not is_odd(w)}
    functions = plainly | {plain(w) for w in own if "-" not in w}
    APART.update(w for w in own if "-" in w and plain(w) in functions)
    fell, unsure, turned = {}, {}, {}
    for p, t in texts.items():
        mine, kits = imports(bare(t), crates) if p.endswith(".antt") else (set(), set())
        local = declared(bare(t)) if p.endswith(".antt") else set()
        names = set()

        def one(m):
            w = m[0]
            before = t[max(0, m.start() - 24) : m.start()]
            if not before.endswith(".") and not t.startswith(".", m.end()):
                names.add(w)
            if not is_odd(w):
                return w
            if p in walks:
                head = re.search(r"([\w'-]+)\.$", before)
                if before.endswith("tie.") or not (w in mine or (w in own and (before.endswith(".") or not w in local))):
                    return w
                if head is None and w in kits:
                    return w
            elif p.endswith(".antt"):
                if w in kits and w not in local:
                    return w
                if w in library and w not in own and w not in mine:
                    return w
                if w not in own and w not in mine and before.endswith("."):
                    unsure.setdefault(w, set()).add(p)
                    return w
            elif w not in own:
                return w
            turned[w] = snake(w)
            if w in names:
                names.discard(w)
                names.add((snake(w), w))
            return snake(w)

        if p.endswith(".rt"):
            new, last = [], 0
            for a, b in sorted(clauses(t)):
                new += [t[last:a], TOKEN.sub(one, t[a:b])]
                last = b
            new = "".join(new + [t[last:]])
        elif p.endswith(".edit"):
            new = "\n".join(l if l.startswith(("#", "file:")) else TOKEN.sub(one, l) for l in t.split("\n"))
        else:
            parts = re.split(r"(--[^\n]*)", t)
            # A comment names what the file does.
            new = []
            for k, part in enumerate(parts):
                if k % 2:
                    new.append(TOKEN.sub(lambda m: snake(m[0]) if m[0] in own and (re.search(r"[a-z][A-Z]", m[0]) or part[m.start() - 1] == "`") else m[0], part))
                else:
                    base, t0 = part, t
                    t = part
                    new.append(TOKEN.sub(one, part))
                    t = t0
            new = "".join(new)
        by = {}
        for n in names:
            a, b = n if isinstance(n, tuple) else (n, n)
            by.setdefault(a, set()).add(b)
        for a, b in by.items():
            if len(b) > 1:
                fell.setdefault((a, tuple(sorted(b))), []).append(os.path.relpath(p, root))
        if new != t:
            with open(p, "w", encoding="utf-8") as f:
                f.write(new)
    for (a, b), ps in sorted(fell.items()):
        print("fell together:", a, b, len(ps), ps[:3])
    for w, ps in sorted(unsure.items()):
        print("left:", w, sorted(os.path.relpath(p, root) for p in ps)[:3])
    print(len(turned), "names turned")
    with open(argv[1], "w", encoding="utf-8") as f:
        f.write("".join(f"{a}\t{b}\n" for a, b in sorted(turned.items())))


main(sys.argv[1:])
