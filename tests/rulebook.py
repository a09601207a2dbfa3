"""The numbered rules of docs/RULES.md and docs/DESK.md, and the places in the tree that cite
them."""
import os
import re
from collections import namedtuple

from definitions import ROOT
from sources import written_files

PAPERS = "RULES.md", "DESK.md"
MADE = os.path.join("docs", "WHERE.md")
RULE = re.compile(r'^- <a id="(\S+)"></a>\*\*([RD]\d+\.\d+)\*\*', re.MULTILINE)
SECTION = re.compile(r"^## (\d+) (.+)$", re.MULTILINE)
SENTENCE = re.compile(r".*?(?:(?<!\.)\.(?= |$)|$)")
NUMBER = re.compile(r"\b[RD]\d+\.\d+\b")
# what opens a definition, by the kind of file; its first group is the name
OPENS = {
    ".antt": re.compile(r"(?:(?:pub|abbrev|unfoldable|record|data) )*(\S+)(?= :| \(| \{|$)"),
    ".rt": re.compile(r'\s*(?:pub(?:\((?:super|crate)\))? )?(?:extern "C" )?(?:fn|const|enum|struct) (\w+)'),
    ".py": re.compile(r"\s*(?:def|class) (\w+)"),
}
COMMENT = {".antt": "--", ".rt": "//", ".py": "#"}
# stored runs and the like: bytes that no rule is cited in
STORED = ".in", ".out", ".args", ".before", ".after", ".csv"
# a rule is cited by the file at path, there by what is called name (or by the file as a whole,
# where that is None)
Citation = namedtuple("Citation", "rule path name")


def written(paper):
    """The text of a paper."""
    with open(os.path.join(ROOT, "docs", paper), encoding="utf-8") as file:
        return file.read()


def headings():
    """The heading of each section, by what the numbers of its rules begin with: `R6.` or `D1.`."""
    return {f"{paper[0]}{number}.": title
            for paper in PAPERS for number, title in SECTION.findall(written(paper))}


def rules():
    """Each rule: its number, the anchor before it, the paper that has it, and its first
    sentence."""
    for paper in PAPERS:
        text = written(paper)
        for found in RULE.finditer(text):
            words = " ".join(re.split(r"\n *- |\n#", text[found.end():])[0].split())
            yield found[2], found[1], paper, SENTENCE.match(words)[0]


def prose():
    """Every text file that a person wrote, as its path from the root and its lines."""
    for path, text in written_files(ROOT):
        if not path.endswith(STORED):
            yield os.path.relpath(path, ROOT), text.split("\n")


def kind(path, lines):
    """The kind of a file by its ending; a script has none and says it in its first line."""
    return ".py" if lines[0].startswith("#!") and "python" in lines[0] else os.path.splitext(path)[1]


def owner(lines, number, how):
    """What the comment at a line speaks of: the definition that begins below it, or else the one
    around it."""
    opens, mark = OPENS.get(how), COMMENT.get(how)
    if not opens:
        return None
    below = number
    while below < len(lines) and lines[below].lstrip().startswith((mark, "#[")):
        below += 1
    found = opens.match(lines[below]) if number < below < len(lines) else None
    if found and not lines[below].startswith("use "):
        return found[1]
    depth = len(lines[number]) - len(lines[number].lstrip())
    for line in reversed(lines[:number]):
        found = opens.match(line) if line and len(line) - len(line.lstrip()) < depth else None
        if found:
            return found[1]
    return None


def citations():
    """Each place that cites a rule, but for the papers themselves and what is made from the
    others."""
    for path, lines in prose():
        if path == MADE or os.path.basename(path) in PAPERS:
            continue
        how = kind(path, lines)
        for number, line in enumerate(lines):
            for rule in NUMBER.findall(line):
                yield Citation(rule, path, owner(lines, number, how))
