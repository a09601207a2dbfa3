"""The must-fail edits, and what the first lines of each say of it.

An edit of code begins with a line `wrong: FUNCTION: WORDS` for each function that it makes answer
wrongly. An edit of a definition or of a statement begins with `says: SENTENCE`, which is what it
then says, and a line `falls: LAW: WORDS` for each law that refuses it: the law that fails first,
and then others that fall with it.
"""
import glob
import os

FIRST_WORDS = ("wrong", "says", "falls")


class Edit:
    """An edit file: its name CRATE/LABEL, its crate, its path, whether the gate tries it, and what
    its first lines say."""

    def __init__(self, name, path, gate):
        self.name, self.crate, self.path, self.gate = name, name.split("/")[0], path, gate
        self.wrong, self.says, self.falls = {}, "", {}
        with open(path, encoding="utf-8") as lines:
            for line in lines:
                word, _, rest = line.strip().partition(": ")
                if word not in FIRST_WORDS:
                    break
                self.take_in(word, rest)

    def take_in(self, word, rest):
        """Notes one of the first lines."""
        name, _, words = rest.partition(": ")
        if word == "says":
            self.says = rest
        else:
            (self.wrong if word == "wrong" else self.falls)[name] = words

    def fault(self):
        """What is wrong with the first lines, or None."""
        if not self.wrong and not self.says:
            return "says neither which function it makes wrong nor what a definition then says"
        if bool(self.says) != bool(self.falls) or (self.says and self.wrong):
            return "`says:` and `falls:` belong together, and `wrong:` apart from them"
        lacking = [name for name, words in {**self.wrong, **self.falls}.items() if not words]
        return f"has no words for {', '.join(lacking)}" if lacking else None


def edits(root):
    """Every edit below a folder: first those that the gate tries, then those that it leaves out."""
    for gate, pattern in ((True, "crates/*/must-fail/*.edit"), (False, "tests/edits_left_out/*/*.edit")):
        for path in sorted(glob.glob(os.path.join(root, pattern))):
            *_, above, folder, file = path.split(os.sep)
            yield Edit(f"{above if gate else folder}/{file.removesuffix('.edit')}", path, gate)


def naming(every):
    """For each function the edits that make it answer wrongly."""
    named = {}
    for edit in every:
        for function in edit.wrong:
            named.setdefault(function, []).append(edit)
    return named
