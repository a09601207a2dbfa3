"""The contracts of the functions, and the definitions of specs/: what each cites, and what cites
each."""
import os
import re
import sys

ROOT = os.path.dirname(os.path.dirname(os.path.realpath(__file__)))
sys.path.insert(0, os.path.join(ROOT, "tests"))
from definitions import files, in_order  # noqa: E402
from sources import ANY, METHODS, PUBLIC, body_at, promising  # noqa: E402

# what the methods of a trait promise, said with the trait's impl; or what a type keeps
GHOST = re.compile(r"^    ghost (\w+)(?: =|:) \{ (.*) \}[;,]$")
BLOCK = re.compile(r"^(pub )?(impl|trait|struct)\b.*\{$")
CONTRACT = re.compile(r"^\s*(?:requires|ensures)(?: \w+)? \{(.*?)\}$", re.MULTILINE | re.DOTALL)
PARAMETER = re.compile(r"(\w+):")
PROMISING = set(promising(ROOT))


def contracts(path):
    """Each function of a source: its name, behind that of its type where it is a method, whether it
    is public, and in their order the words of its contract but for its own parameters. So too each
    ghost item, which is public but in a struct that is private."""
    lines, owner, block = open(path, encoding="utf-8").read().split("\n"), "", None
    for number, line in enumerate(lines):
        block = BLOCK.match(line) or (block if line != "}" else None)
        ghost = GHOST.match(line)
        if ghost and block:
            yield f"{block[0]} {ghost[1]}", bool(block[1]) or block[2] == "impl", in_order(ghost[2])
        impl = METHODS.match(line)
        owner = impl[1] + "::" if impl else "" if line == "}" else owner
        found = ANY.match(line)
        if found:
            head = "\n".join(lines[number:body_at(lines, number)])
            own = {"result", *PARAMETER.findall(head)}
            said = [word for word in in_order(" ".join(CONTRACT.findall(head))) if word.split(".")[0] not in own]
            yield owner + found[1], bool(PUBLIC.match(line)), said


class House:
    """The definitions of all specs, what each cites, and what cites each. A law whose name is one
    of those given is one that a reader must understand."""

    def __init__(self, named=()):
        self.defined, self.types, self.cites, self.by = {}, {}, {}, {}
        self.public, self.private, self.named = set(), set(), named
        self.files = {file.path: file for file in files()}
        for file in self.files.values():
            if file.place[1].startswith("specs."):
                self.defined |= {(*file.place, name): (file, d) for name, d in file.definitions.items()}
                self.types |= {(*file.place, name): (*file.place, d) for name, d in file.constructors.items()}
        for file in self.files.values():
            self.take_in(file)
        for here, there in self.cites.items():
            for name in there:
                self.by.setdefault(name, []).append(here)

    def take_in(self, file):
        """Notes what the definitions and the contracts of a file cite, and from which of them all
        begins."""
        for name, definition in file.definitions.items():
            here = (*file.place, name)
            self.cites[here] = self.meant(file, definition.words) - {here}
            if here in self.defined:
                self.public |= {here} if here[0] == "promises" or definition.marked else set()
            elif definition.marked or name in self.named:
                self.cites[(*here, "stated")] = self.meant(file, definition.stated)
                self.public.add((*here, "stated"))
        for name, public, said in contracts(file.path) if file.path.endswith(".rt") else ():
            here = (*file.place, name)
            self.cites[here] = self.meant(file, said)
            (self.public if public and file.path in PROMISING else self.private).add(here)

    def meant(self, file, said):
        """The definitions of specs/ that words of a file can name."""
        found = {file.meant(file.constructors.get(word, word)) for word in said}
        return {self.types.get(name, name) for name in found} & self.defined.keys()

    def shown(self, name):
        """What cites a definition: contracts and definitions, and else laws."""
        by = {("proofs" in here[1].split("."), "::".join([here[0], *here[1].split("."), here[2]])) for here in self.by.get(name, [])}
        best = sorted(said for law, said in by if law == all(law for law, _ in by))
        return ", ".join(best[:4]) + (f" and {len(best) - 4} more" if len(best) > 4 else "") or "nothing"

    def reached(self, begin):
        """All to which these lead, by way of definitions of specs/."""
        found, to_do = set(), [name for here in begin for name in self.cites[here]]
        while to_do:
            name = to_do.pop()
            if name not in found:
                found.add(name)
                to_do += self.cites[name]
        return found
