"""The documents' sentences, known by their checksums: docs/sentences.txt, and what docs/AUDIT.md quotes of them.

The documents are not in this repository. The list has a line for each sentence of theirs that the page owes a row:

  01 2 31 8 0123456789abcdef A refused word    document, section and number; words; checksum; at most its first three words
    3-5 0123456789abcdef                       a part that rows quote: its first and last word, and its own checksum

and before each document's a line with their number and one checksum over theirs, so that a lost line shows. Document 01 is there with
all but headings and heads of tables, a line of a table being a sentence; document 00 with demands 1 to 3; document 02 with the
requests that have a note in docs/landings. A checksum is the first 16 digits of SHA-256 of the words with one space between
them, without points, commas, colons, brackets and quotation marks at both ends.

A row quotes between “ and ”: whole sentences, or parts of them; `...` between two parts stands for the words between them. A
quote is the documents' own where the list has each part's checksum, all in one sentence and in its order. A sentence has its rows
where the quotes together reach from its first word to its last.
"""

import collections
import difflib
import hashlib
import pathlib
import re

DOCS = pathlib.Path(__file__).resolve().parent.parent / "docs"
LIST = DOCS / "sentences.txt"
NAMES = ("00-demands.md", "01-scope.md", "02-change-requests.md")
HEAD = """\
# The sentences that docs/AUDIT.md owes a row, by their checksums: tools/sentences.py says how to read this.
# Made by `tools/audit --documents FOLDER --write` from the folder of the documents.
"""
# Document 00's demands that are statements of the product.
DEMANDS = ("1", "2", "3")
# Document 02's requests; a note with another number is of work that none of them asks for.
REQUESTS = range(1, 15)
# A sentence ends at a point before a capital, a digit, a command's name or a path; the points of `...` and `..` end none.
END = re.compile(r'(?<=[^.]\.)\s+(?=["(]?[A-Z0-9]|\w+[_/]\w)')
QUOTE = re.compile(r"“([^“”]*)”")
EDGES = " .,:;()\""

# A run of words of a sentence: its key, its first and its last word, counted from 1.
Run = collections.namedtuple("Run", "key first last")


def landed():
    """The numbers of document 02's requests that have landed: those with a note, docs/landings/NN-NAME.md."""
    numbers = (int(note.name[:2]) for note in DOCS.glob("landings/[0-9][0-9]-*.md"))
    return [str(number) for number in sorted(numbers) if number in REQUESTS]


def checksum(text):
    return hashlib.sha256(" ".join(text.split()).strip(EDGES).encode()).hexdigest()[:16]


def split(text):
    return [sentence for sentence in END.split(" ".join(text.split())) if sentence]


def blocks(text):
    """Document 01 as (section's number, text): paragraphs, items of lists and rows of tables, without headings."""
    section, block, rows = 0, [], 0
    for line in text.splitlines() + [""]:
        item = re.match(r"(?:-|\d+\.) +", line)
        if block and (not line.strip() or item or line.startswith(("#", "|"))):
            yield section, " ".join(block)
            block = []
        rows = rows + 1 if line.startswith("|") else 0
        if line.startswith("## "):
            section += 1
        elif rows > 2:
            first, *others = [cell.strip() for cell in line.strip().strip("|").split("|")]
            yield section, f"{first}: {'; '.join(others)}"
        elif line.strip() and not rows and not line.startswith("#"):
            block.append(line[item.end() if item else 0:])


def read_documents(folder):
    """Every sentence by its key, from the documents in the folder."""
    demands, rules, requests = ((folder / name).read_text() for name in NAMES)
    found = [("00", number, text) for number, text in re.findall(r"(?m)^> (\d+)\. (.*)$", demands) if number in DEMANDS]
    found += [("01", str(section), text) for section, text in blocks(rules)]
    found += [("02", number, text) for number, text in re.findall(r"(?m)^(\d+)\) \*\*.*?\*\* (.*)$", requests) if number in landed()]
    sentences, numbers = {}, collections.Counter()
    for document, section, text in found:
        for sentence in split(text):
            numbers[document, section] += 1
            sentences[f"{document} {section} {numbers[document, section]}"] = sentence
    return sentences


def runs_in(sentences, part):
    """Where the part stands in the documents' own text."""
    wanted, length = checksum(part), len(part.split())
    return [
        Run(key, first + 1, first + length)
        for key, words in sentences.items()
        if part.strip(EDGES) in " ".join(words)
        for first in range(len(words) - length + 1)
        if checksum(" ".join(words[first:first + length])) == wanted
    ]


def parts_of(quote):
    """A quote's sentences, each as its parts between `...`."""
    return [[part.strip() for part in sentence.split(" ... ")] for sentence in split(quote)]


def listed(sentences, parts):
    """The list as text: sentences are (key, words, checksum, first words), parts runs with checksums."""
    lines, last = [], None
    for key, words, mark, first_words in sentences:
        document = key.split()[0]
        if document != last:
            marks = [other[2] for other in sentences if other[0].split()[0] == document]
            lines.append(f"document {document}: {len(marks)} sentences, {checksum(' '.join(marks))}")
            last = document
        lines.append(f"{key} {words} {mark} {first_words}".rstrip())
        lines += [f"  {run.first}-{run.last} {of_part}" for run, of_part in sorted(parts) if run.key == key]
    return HEAD + "\n".join(lines) + "\n"


def make(folder, quotes):
    """The list that the documents in the folder and the page's quotes give."""
    texts = read_documents(folder)
    words_in = {key: sentence.split() for key, sentence in texts.items()}
    parts = set()
    for quote in quotes:
        for sentence in parts_of(quote):
            for part in sentence:
                runs = runs_in(words_in, part)
                # what is a whole sentence is that one, wherever else its words stand
                if all(run.last - run.first + 1 < len(words_in[run.key]) for run in runs):
                    parts.update((run, checksum(part)) for run in runs)
    rows = []
    for key, words in words_in.items():
        # at most three words, and never more than half of a sentence
        rows.append((key, len(words), checksum(texts[key]), " ".join(words[:min(3, len(words) // 2)])))
    return listed(rows, parts)


class Sentences:
    """The list as it is read, and what the page's quotes reach of it."""

    def __init__(self, text):
        self.faults, self.words, self.first_words = [], {}, {}
        self.parts = collections.defaultdict(list)
        self.reached = collections.defaultdict(set)
        self.quoted = set()
        rows, parts = [], set()
        for line in text.splitlines():
            part = re.fullmatch(r"  (\d+)-(\d+) ([0-9a-f]{16})", line)
            row = re.fullmatch(r"(\w+ \w+ \d+) (\d+) ([0-9a-f]{16})(?: (.*))?", line)
            if row:
                rows.append((row[1], int(row[2]), row[3], row[4] or ""))
                self.words[row[1]], self.first_words[row[1]] = int(row[2]), row[4] or ""
                self.parts[row[3]].append(Run(row[1], 1, int(row[2])))
            elif part and rows:
                run = Run(rows[-1][0], int(part[1]), int(part[2]))
                parts.add((run, part[3]))
                self.parts[part[3]].append(run)
        if not rows:
            self.faults.append(f"{LIST.name} lists no sentence")
        elif listed(rows, parts) != text:
            self.faults.append(f"{LIST.name} isn't whole: its lines, their order or a document's checksum")
        for number in landed():
            if f"02 {number} 1" not in self.words:
                self.faults.append(f"{LIST.name} lists no sentence of request {number}, which has landed")

    def of_parts(self, parts):
        """The runs, each in one sentence, that have these parts in this order."""
        found = self.parts[checksum(parts[0])]
        for part in parts[1:]:
            nexts = self.parts[checksum(part)]
            found = [Run(run.key, run.first, other.last) for run in found for other in nexts if other.key == run.key and other.first > run.last]
        return sorted(set(found))

    def quote(self, quote):
        """Takes a row's quote; gives what is wrong with it."""
        for parts in parts_of(quote):
            runs = self.of_parts(parts)
            told = " ... ".join(parts)
            if not runs:
                yield f"not the documents' own: “{told}”"
            elif len(runs) > 1:
                yield f"stands in several places ({', '.join(sorted({run.key for run in runs}))}), quote more: “{told}”"
            else:
                self.reached[runs[0].key].update(range(runs[0].first, runs[0].last + 1))
            self.quoted.update(checksum(part) for part in parts)

    def left(self):
        """The sentences without a row, whole or in part, and the listed parts that no row quotes."""
        for key, words in self.words.items():
            missing = [word for word in range(1, words + 1) if word not in self.reached[key]]
            if missing:
                which = "sentence" if len(missing) == words else f"{len(missing)} of the {words} words, the first being word {missing[0]}, of"
                yield f"no row for {which} {key}, “{self.first_words[key]} ...”"
        for mark, runs in self.parts.items():
            if mark not in self.quoted and all(run.last - run.first + 1 < self.words[run.key] for run in runs):
                yield f"{LIST.name} has a part of {runs[0].key} that no row quotes: {runs[0].first}-{runs[0].last}"


def differences(made, kept):
    """Where the list as it is kept differs from the one that the documents give."""
    told = {"- ": f"{LIST.name} has, and the documents haven't", "+ ": f"the documents have, and {LIST.name} hasn't"}
    changed = difflib.ndiff(kept.splitlines(), made.splitlines())
    return [f"{told[line[:2]]}: {line[2:].strip()}" for line in changed if line[:2] in told]
