"""What a citation leads to: the line of a file where a name is declared, the lines that a reader wants to see of it, and what the names in
these lines lead to in their turn. tools/pages shows it."""

import functools
import re

# A declaration in a file of definitions or proofs, from the start of its line.
ANTT = re.compile(r"^ *(?:(?:pub|abbrev|unfoldable) )*(?:(?:record|data) )?([^\s(){}:=]+)(?: \((?:[^()]|\([^()]*\))*\)| \{[^{}]*\})* :")
USED = re.compile(r"use Rattle\.(\w+)\.(specs|proofs)\.([\w.]+)\.\{([^}]*)\}")
COMMENT = {".antt": "--", ".rt": "//", ".rs": "//", ".edit": "#"}
# A test's text is shown up to here; a longer one is in its file.
MOST = 30


@functools.lru_cache(None)
def lines(file):
    return file.read_text().splitlines() if file.exists() else []


@functools.lru_cache(None)
def bare(file, comments):
    """A file's text without its comments, line for line."""
    return re.sub(comments or r"(?!)", lambda found: "\n" * found[0].count("\n"), "\n".join(lines(file)) + "\n")


def indent(line):
    return len(line) - len(line.lstrip(" "))


def line_with(file, pattern, comments):
    """The number of the first line on which the pattern ends, from 1 on."""
    found = re.search(pattern, bare(file, comments))
    return found and bare(file, comments).count("\n", 0, found.end() - 1) + 1


def above(text, at, marks):
    """The first of the lines right above that are comments or attributes."""
    while at > 1 and text[at - 2].lstrip().startswith(marks) and indent(text[at - 2]) == indent(text[at - 1]):
        at -= 1
    return at


def block(text, at):
    """The last line of what begins here: up to a blank line that isn't inside of it."""
    last = at
    for number in range(at + 1, len(text) + 1):
        if text[number - 1].strip():
            if not text[number - 2].strip() and indent(text[number - 1]) <= indent(text[at - 1]):
                break
            last = number
    return last


def statement(text, at):
    """The last line of a statement without its proof: its lines are indented further."""
    last = at
    while last < len(text) and text[last].strip() and indent(text[last]) > indent(text[at - 1]):
        last += 1
    return last


def heads(text, at):
    """The lines that begin what a line stands in, the innermost first: modules, whose arguments a statement asks for, and records."""
    level, found = indent(text[at - 1]), []
    for number in range(at - 1, 0, -1):
        line = text[number - 1]
        if indent(line) < level and re.match(r" *(?:pub )?(?:module|record|data)\b", line):
            level = indent(line)
            found.append(number)
    return found


def parts(file, at, kind):
    """The lines to be shown of what stands at a line, as their first and last: of definitions and statements with the heads of the modules
    that they stand in; a field's whole record."""
    text = lines(file)
    if file.suffix != ".antt":
        return [(1, len(text)) if kind == "edit" else extent(file, at, kind)]
    around = heads(text, at)
    records = [number for number in around if "module" not in text[number - 1].split()]
    at = records[-1] if records else at
    modules = [number for number in reversed(around) if number < at and number not in records]
    return [(above(text, number, "--"), until(text, number, "where")) for number in modules] + [extent(file, at, kind)]


def until(text, at, ends):
    """The first line from here on that ends so."""
    return next((number for number in range(at, len(text) + 1) if text[number - 1].rstrip().endswith(ends)), at)


def extent(file, at, kind):
    """The first and the last line to be shown of what stands at a line."""
    text = lines(file)
    if file.suffix == ".antt":
        whole = "specs" in file.parts
        return above(text, at, "--"), block(text, at) if whole else statement(text, at)
    if file.suffix == ".rt":
        return above(text, at, ("//", "#[")), source_end(text, at)
    if file.suffix == ".h":
        first = at
        while first > 1 and text[first - 2].strip():
            first -= 1
        return first, until(text, at, ";")
    if file.suffix == ".rs" and kind != "kind":
        last = at if kind == "code" else test_end(text, at)
        return above(text, at, ("//", "#[")), last
    return at, at


def source_end(text, at):
    """A function up to its body, which stands below its contract; anything else to its end."""
    line = text[at - 1]
    if re.search(r"\bfn\b", line):
        last = next((n for n in range(at, len(text) + 1) if text[n - 1].rstrip().endswith(("{", ";")) and not re.match(r" *(requires|ensures)\b", text[n - 1])), at)
        return last - 1 if text[last - 1].strip() == "{" else last
    return until(text, at, "}") if line.rstrip().endswith("{") else until(text, at, ";")


def test_end(text, at):
    close = " " * indent(text[at - 1]) + "}"
    last = next((n for n in range(at, len(text) + 1) if text[n - 1] == close), at)
    return min(last, at + MOST)


@functools.lru_cache(None)
def declared(file):
    """The names that a file of definitions or proofs declares, with their lines."""
    found = {}
    for number, line in enumerate(bare(file, r"--.*").splitlines(), 1):
        name = ANTT.match(line)
        if name and not line.lstrip().startswith("use "):
            found.setdefault(name[1], number)
    return found


@functools.lru_cache(None)
def declared_in_source(crate):
    """The types that a crate's source declares, with their files and lines."""
    found = {}
    for file in sorted(crate.glob("src/*.rt")):
        for number, line in enumerate(lines(file), 1):
            name = re.match(r"pub (?:struct|enum) (\w+)", line)
            if name:
                found.setdefault(name[1], (file, number))
    return found


@functools.lru_cache(None)
def leads(file, crates):
    """What the names in a file lead to: each its file and line. Its own declarations and what its `use` lines bring."""
    found = {name: (file, number) for name, number in declared(file).items()} if file.suffix == ".antt" else {}
    for crate, part, module, names in USED.findall("\n".join(lines(file))):
        for name in re.split(r",\s*", names.strip().rstrip(",")):
            name, _, other = name.strip().partition(" as ")
            if module.startswith("declared."):
                place = declared_in_source(crates / crate).get(name)
            else:
                target = crates / crate / part / f"{module.replace('.', '/')}.antt"
                place = (target, declared(target)[name]) if name in declared(target) else None
            if place:
                found[other or name] = place
    return found
