"""What the scripts over the sources share: the crates, their files, the text without comments, what they import, and what they define.

A source is one .rt or .antt file. `use` calls its module by crate and path: `Rattle.score.specs.Parts` is crates/score/specs/Parts.antt.
"""
import os
import re

top = os.path.dirname(os.path.dirname(os.path.abspath(__file__)))
MODIFIERS = ("pub", "abbrev", "unfoldable", "opaque", "private")
WORD = re.compile(r"[^\s(){}\[\];,.]+|\[\]")
CLAUSE = re.compile(r"\b(?:requires|ensures|invariant|decreases|ghost(?! use\b)[^{};]*?)\*?(?: [\w-]+)? \{")
CITED = re.compile(r"\b(?:crate|Rattle\.[a-z_0-9]+)(?:::|\.)(?:specs|proofs)(?:(?:::|\.)[^\s(){}\[\];,.:]+)+")
USE = re.compile(r"^(?P<kind>(?:ghost |pub )*use) (?P<module>[^\s{;]+?)(?:\.\{(?P<names>[^}]*)\}| as (?P<alias>[^\s;]+))?;?$", re.M)


def listed():
    """The lines of crates.txt: (the line, its crate or None, the words behind that name, as `staticlib`, and what it depends on)."""
    for line in open(os.path.join(top, "crates.txt"), encoding="utf-8").read().split("\n"):
        head, colon, deps = line.partition(":")
        if colon and not line.startswith("#"):
            yield line, head.split()[0], head.split()[1:], deps.split()
        else:
            yield line, None, [], []


def marks_of(name):
    """The words that crates.txt has behind a crate's name; None for no crate."""
    return next((marks for _, crate, marks, _ in listed() if crate == name), None)


def below(name=None):
    """The crates that are proved for a crate, itself among them; for no name, all."""
    lists = {crate: deps for _, crate, _, deps in listed() if crate}
    found, todo = set(), [name] if name else list(lists)
    while todo:
        crate = todo.pop()
        if crate in lists and crate not in found:
            found.add(crate)
            todo += lists[crate]
    return found


def words(text):
    """The words of a text as antt reads them; `[]` is one."""
    return set(WORD.findall(text))


def parts_of(name):
    """The words by which a name is used: `◌≤◌` as ≤."""
    return [part for part in name.split("◌") if part]


def file_of(module):
    """The .antt file of a module of the repository, below its top; None for another."""
    found = re.fullmatch(r"Rattle\.([a-z_0-9]+)\.(specs|proofs)\.(.+)", module)
    return found and f"crates/{found[1]}/{found[2]}/{found[3].replace('.', '/')}.antt"


def walked(folder):
    """The folders at and below one of the repository, and the files in each; not what rt and cargo write."""
    for place, folders, names in os.walk(os.path.join(top, folder)):
        folders[:] = sorted(one for one in folders if one not in ("out", "target", "__pycache__"))
        yield place, sorted(names)


class Import:
    """One `use`: its module, and pairs of a name there and the name here."""

    def __init__(self, match):
        self.span, self.kind, self.module, self.alias = match.span(), match["kind"], match["module"], match["alias"]
        self.names = None
        if match["names"] is not None:
            both = [tuple(name.split(" as ")) for name in re.split(r"\s*,\s*", match["names"].strip().rstrip(",")) if name]
            self.names = [(pair[0].strip(), pair[-1].strip()) for pair in both]


class Source:
    def __init__(self, path):
        self.path = path
        self.crate = path.split("/")[1]
        self.rattle = path.endswith(".rt")
        self.text = open(os.path.join(top, path), encoding="utf-8").read()
        mark = "//" if self.rattle else "--"
        blank = lambda found: " " * len(found[0])
        self.code = re.sub(rf"(?:^|(?<=\s)){mark}.*$", blank, self.text, flags=re.M)
        self.imports = [Import(found) for found in USE.finditer(self.code)]
        self.body = list(self.code)
        for one in self.imports:
            self.body[one.span[0]:one.span[1]] = " " * (one.span[1] - one.span[0])
        self.body = "".join(self.body)

    def contracts(self):
        """What an .rt file says in contracts, ghost fields and the like."""
        return " ".join(braced(self.body, found.end() - 1) for found in CLAUSE.finditer(self.body))

    def cited(self, lines=None):
        """Pairs of a module and a name that the file, or lines of it, cite by the whole path, as an attribute `using(crate::proofs::M::a)` does."""
        for path in CITED.findall(self.body if lines is None else "\n".join(lines)):
            names = re.split(r"::|\.", path)
            crate = self.crate if names[0] == "crate" else names.pop(0) and names[0]
            yield ".".join(["Rattle", crate, *names[1:-1]]), names[-1]

    def line(self, place):
        return self.text.count("\n", 0, place) + 1


def braced(text, start):
    """What stands between the brace at a place and the one that closes it."""
    depth = 0
    for place in range(start, len(text)):
        depth += (text[place] == "{") - (text[place] == "}")
        if not depth:
            return text[start + 1:place]
    return text[start + 1:]


def sources():
    """Every source below crates/, by path."""
    found = {}
    for place, names in walked("crates"):
        for name in names:
            if name.endswith((".rt", ".antt")):
                path = os.path.relpath(os.path.join(place, name), top)
                found[path] = Source(path)
    return found


class Item:
    """A definition or law of an .antt file: its name, the lines that it takes with their numbers, and its constructors."""

    def __init__(self, name, line):
        self.name, self.line, self.lines, self.numbers, self.also = name, line, [], [], []

    def words(self):
        return words("\n".join(self.lines))


def items(source):
    """What an .antt file defines at its top or in a module block; what is in a `where`, or is a field of a record, is no item."""
    found, blocks, item, data = {}, [], None, None
    for number, line in enumerate(source.body.split("\n"), 1):
        if not line.strip():
            continue
        indent = len(line) - len(line.lstrip())
        while blocks and indent <= blocks[-1]:
            blocks.pop()
        first = line.split()
        while first and first[0] in MODIFIERS:
            first.pop(0)
        if indent == (blocks[-1] + 2 if blocks else 0) and first:
            data = None
            if first[0] == "module":
                blocks.append(indent)
                item = Item("", number)
            elif first[0] in ("record", "data", "ruleset") and len(first) > 1:
                item = found.setdefault(first[1], Item(first[1], number))
                data = item if first[0] == "data" else None
            elif first[0] in ("mod", "unfolding"):
                item = item if first[0] == "unfolding" and item else Item("", number)
            elif first[0] in found:
                item = found[first[0]]
            elif re.search(r"(^|\s):(\s|$)", line):
                item = found.setdefault(first[0], Item(first[0], number))
        elif data and re.match(r"\s+\S+ :(\s|$)", line):
            data.also.append(line.split()[0])
        if item:
            item.lines.append(line)
            item.numbers.append(number)
    return found
