"""The definitions in the sources, specs and proofs of the listed crates, and what each can cite."""
import os
import re
import sys

ROOT = os.path.dirname(os.path.dirname(os.path.realpath(__file__)))
sys.path.insert(0, os.path.join(ROOT, "tests"))
from sources import listed, texts  # noqa: E402

MARK = "For the reader"
USE = re.compile(r"^\s*(?:ghost )?use (\S+?)(?:\.\{(.*)\}| as (\S+?))?;?$")
DEFINES = re.compile(r"(?:(?:pub|abbrev|unfoldable) )*(?:(?P<kind>record|data|ruleset) (?P<type>\S+)|(?P<law>\S+) :(?: |$))")
CONSTRUCTOR = re.compile(r"(\S+) :(?: |$)")
WORD = re.compile(r"[^\s(){},;]+")
# what an attribute of a function names, as in #[tactic(auto, using(crate::proofs::Laws::law))]
IN_ATTRIBUTE = re.compile(r"\b(\w+)::((?:specs|proofs)(?:::[^\s,():]+)+)")


def in_order(text):
    """The words of a text that can cite, each once: not a field with its dot before it, and without
    the dot that ends what λ binds. Of `a.b` also `a`, whose field b may be."""
    found = []
    for word in (word.rstrip(".") for word in WORD.findall(text) if not word.startswith(".")):
        parts = word.split(".")
        found += [".".join(parts[:count]) for count in range(len(parts), 0, -1)]
    return list(dict.fromkeys(found))


def words(text):
    """The same as a set."""
    return set(in_order(text))


class Definition:
    """A name, its line, whether it is marked, the words of its type, and those of its type and
    clauses."""

    def __init__(self, name, line, marked):
        self.name, self.line, self.marked, self.stated, self.words = name, line, marked, set(), set()


class File:
    """What a file imports and defines, the data type of each constructor, and the words outside of
    its definitions."""

    def __init__(self, path, text):
        self.path = path
        self.place = module(path)
        self.names, self.aliases, self.definitions, self.constructors, self.outside = {}, {}, {}, {}, set()
        self.attributes = []
        lines = text.split("\n")
        for found in filter(None, map(USE.match, lines)):
            self.take_in(*found.groups())
        rest = ["" if USE.match(line) else line.rstrip() for line in lines]
        if path.endswith(".rt"):
            self.outside = words("\n".join(rest))
            self.attributes = [self.named(*found) for found in IN_ATTRIBUTE.findall("\n".join(rest))]
        else:
            self.read(rest, open(path, encoding="utf-8").read().split("\n"))

    def take_in(self, place, names, alias):
        """Notes an import: of single names, or of a module under a name of its own."""
        for name in filter(None, map(str.strip, (names or "").split(","))):
            there, _, here = name.partition(" as ")
            self.names[here or there] = place, there
        if alias:
            self.aliases[alias] = place

    def read(self, lines, raw):
        """Parts the lines into definitions. One stands as far in as the first of its module, and
        what stands further in belongs to it."""
        depths, current, data, stating, head = [0], None, None, False, ""
        for number, line in enumerate(lines, 1):
            start = line.lstrip()
            depth = len(line) - len(start)
            if not start:
                continue
            if head.endswith("where"):
                depths.append(depth)
                head = ""
            while not head and depth < depths[-1]:
                depths.pop()
                current = None
            defined = DEFINES.match(start) if depth == depths[-1] else None
            stating = bool(defined) or (stating and depth > depths[-1])
            if head or (depth == depths[-1] and start.startswith("module ")):
                head, current = start, None
            elif defined:
                name = defined["type"] or defined["law"]
                data = name if defined["kind"] == "data" else None
                current = self.definitions.setdefault(name, Definition(name, number, marked(raw, number)))
            elif current and data and CONSTRUCTOR.match(start):
                self.constructors[CONSTRUCTOR.match(start)[1]] = data
            if current:
                current.words |= words(line)
                current.stated |= words(line) if stating else set()
            else:
                self.outside |= words(line)

    def meant(self, word):
        """The definition that a word can name: its crate, its module and its name; or nothing."""
        if word in self.definitions:
            return (*self.place, word)
        place, name = self.names.get(word, (None, None))
        if not place and "." in word:
            alias, _, name = word.rpartition(".")
            place = self.aliases.get(alias)
        if not place or not place.startswith("Rattle."):
            return None
        crate, _, rest = place.removeprefix("Rattle.").partition(".")
        return crate, rest, name

    def named(self, crate, path):
        """What an attribute names, by the same."""
        *there, name = path.split("::")
        return self.place[0] if crate == "crate" else crate, ".".join(there), name


def module(path):
    """The crate of a file, and the name of its module in it."""
    crate, *rest = os.path.relpath(os.path.splitext(path)[0], os.path.join(ROOT, "crates")).split(os.sep)
    return crate, ".".join(rest)


def marked(raw, number):
    """Whether the comment that ends above a line says that what follows is for the reader."""
    above = number - 2
    while above >= 0 and raw[above].lstrip().startswith("--"):
        if MARK in raw[above]:
            return True
        above -= 1
    return False


def files():
    """Every file of the listed crates."""
    return (File(path, text) for crate in listed(ROOT) for path, text in texts(ROOT, crate))
