"""The theorems of one answer in crates/promises/proofs, and the files in which they stand."""
import os
import re

from sources import comment_above

FACADE = re.compile(r"^use Rattle\.(\w+)\.proofs\.([\w.]+) as (\S+)$")
STATED = re.compile(r"^pub (\S+) : Once(?:Seen)?\b")
THEOREM = re.compile(
    r"^pub (\S+) : Once(?:(Seen)|) (\S+)\.Kinds\.ps \3\.Kinds\.r (?(2)\(λ κs x\. x\.now\) )\3\.Reads\.Learnt$"
)
# of a function that takes any type with a trait: once for all of them, in a module that has the
# type, what the toolchain passes of it, and the law of the trait that every such type proves
# (Fault: cbor). With any other premise it is no theorem of one answer.
MODULE = (
    "module _ (T : RattleType) (L : Laws T) (C : IsCopy T) (G : Ghosts T.Denot) (d : Dict) "
    "(F : from.Ghosts T.Denot Refusal) (e : Dict) (K : clone.Ghosts T.Denot) (f : Dict) "
    "(apart : (a b : T.Denot) → G.number_of_fault a ≡ G.number_of_fault b → a ≡ b) where"
)
GENERIC = re.compile(
    r"^  pub (\S+) : Once(?:(Seen)|) \((\S+)\.Kinds\.ps ([A-Z ]+)\) \(\3\.Kinds\.r \4\) \(\3\.Reads\.Learnt \4(?: \w)*\)$"
)


def whole(lines, number):
    """The statement that begins at a line, as one line."""
    begins, end = len(lines[number]) - len(lines[number].lstrip()), number + 1
    while end < len(lines) and lines[end].startswith(" " * (begins + 4)):
        end += 1
    return " ".join([lines[number], *(line.strip() for line in lines[number + 1:end])])


def in_module(lines, number):
    """Whether a statement stands in a module that has the premises of MODULE, and no others."""
    heads = [at for at in range(number) if lines[at] and not lines[at].startswith((" ", "--"))]
    return bool(heads) and whole(lines, heads[-1]) == MODULE


class Theorem:
    """The theorem of a function: its file and name, whether it is only of what is seen through an
    answer, whether it is of every type of faults, and the comment above it."""

    def __init__(self, path, name, seen, generic, comment):
        self.path, self.name, self.seen, self.generic, self.comment = path, name, seen, generic, comment


def theorem_of(function):
    """The name that the theorem of a function must have."""
    return function.replace("::", "_") + "_once"


def statements(root, part):
    """Each file below a part of crates/promises: its path, its lines, and by their names there the
    functions whose contracts it can name."""
    for folder, _, files in sorted(os.walk(os.path.join(root, "crates", "promises", part))):
        for file in sorted(files):
            path = os.path.join(folder, file)
            lines = open(path, encoding="utf-8").read().split("\n")
            facades = filter(None, map(FACADE.match, lines))
            yield path, lines, {f[3]: "::".join([f[1], *f[2].split(".")]) for f in facades}


def theorems(root):
    """The theorem of each function that has one, and what is wrong with the others."""
    proved, faults = {}, []
    for path, lines, facades in statements(root, "proofs"):
        file = os.path.basename(path)
        for number, line in enumerate(lines):
            found = THEOREM.match(line) or (GENERIC.match(whole(lines, number)) if line.startswith("  pub ") and in_module(lines, number) else None)
            function = facades.get(found[3]) if found else None
            if function and found[1] == theorem_of(function):
                comment = " ".join(comment_above(lines, number, "--"))
                proved[function] = Theorem(path, found[1], bool(found[2]), line.startswith(" "), comment)
            elif function:
                faults.append(f"{file}: the theorem of {function} is named {found[1]}")
            elif STATED.match(line):
                faults.append(f"{file}: not of one function's contract: {line}")
    return proved, faults
