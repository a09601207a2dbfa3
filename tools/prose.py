"""Prose as lines, and where it stands in a file: all of a page of Markdown, the comments of a
source.

A Block is a run of lines that is wrapped by itself. Its first line begins with `first`, and each
other one with `lead`: what stands behind that is its text. A `box` is a C comment of one line.
"""
import ast
import io
import os
import re
import tokenize
from collections import namedtuple

WIDTH = 100
Block = namedtuple("Block", "begin end first lead kind")
COMMENT, PAGE, BOX = "comment", "page", "box"

# Never broken: a span of code, the target of a link, and words that are looked for.
ATOM = re.compile(r"(?:(`+)(?:(?!\1).)+?\1(?!`)|\]\([^)]*\)|For the reader|Assumes nothing|\S)+")
# What may not begin a line, since it would make it an item, a heading, a quote, a row or a rule.
LEADS = re.compile(r"(?:-+|=+|[*+]|\d+[.)]|[#>|].*|`{3,}.*|~{3,}.*)$")
MARKS = {".rt": "//", ".c": "//", ".h": "//", ".antt": "--", ".py": "#", ".sh": "#", ".txt": "#"}
OPENS = re.compile(r'[A-Za-z]*("""|\'\'\'|"|\')')
IN_C = re.compile(r"""/\*.*?\*/|//[^\n]*|"(?:\\.|[^"\\\n])*"|'(?:\\.|[^'\\\n])*'""", re.DOTALL)
IN_EDIT = re.compile(r"(?:wrong|says|falls):")
HERE = re.compile(r"<<-?\s*(['\"]?)(\w+)\1")


def atoms(text):
    """What stays whole when a text is broken into lines."""
    found = []
    for atom in (match[0] for match in ATOM.finditer(text)):
        if found and LEADS.match(atom):
            found[-1] += f" {atom}"
        else:
            found.append(atom)
    return found


def filled(text, first, rest):
    """A text as lines that are not too long where that can be."""
    lines, line = [], None
    for atom in atoms(text):
        if line is None:
            line = first + atom
        elif len(line) + 1 + len(atom) <= WIDTH:
            line += f" {atom}"
        else:
            lines.append(line)
            line = rest + atom
    return [*lines, line]


def ending(path):
    """What a file is, by the end of its name or its first line; nothing where it has no prose."""
    end = os.path.splitext(path)[1]
    if end in (".md", ".edit") or (end in MARKS and end != ".txt"):
        return end
    if os.path.basename(path) == "crates.txt":
        return ".txt"
    with open(path, "rb") as file:
        first = file.readline()
    if end or not first.startswith(b"#!"):
        return None
    return ".py" if b"python" in first else ".sh"


def grouped(places, mark):
    """Comment lines, each told by its number and its column, as blocks of one column."""
    blocks = []
    for number, column in places:
        last = blocks[-1] if blocks else None
        lead = f"{' ' * column}{mark} "
        if last and last.end == number and last.lead == lead:
            blocks[-1] = last._replace(end=number + 1)
        else:
            blocks.append(Block(number, number + 1, lead, lead, COMMENT))
    return blocks


def in_lines(lines, mark):
    """The comments of a language whose comments end with the line, and where one follows code."""
    own = re.compile(rf"(\s*){mark}(?: |$)")
    behind = re.compile(rf"(.*?\S)\s+{mark}(?: |$)")
    places, after, until = [], [], None
    for number, line in enumerate(lines):
        if until:
            until = None if line.strip() == until else until
            continue
        found, code = own.match(line), behind.match(line)
        here = HERE.search(line) if mark == "#" and not found else None
        until = here[2] if here else None
        if found:
            places.append((number, len(found[1])))
        elif code and code[1].count('"') % 2 == 0 and code[1].count("'") % 2 == 0:
            after.append((number, len(code[1])))
    return grouped(places, mark), after


def docstrings(lines):
    """The block of each docstring of a Python text."""
    for node in ast.walk(ast.parse("\n".join(lines))):
        if not isinstance(node, (ast.Module, ast.ClassDef, ast.FunctionDef, ast.AsyncFunctionDef)):
            continue
        if ast.get_docstring(node, clean=False) is not None:
            place = node.body[0]
            column = lines[place.lineno - 1].index(lines[place.lineno - 1].lstrip())
            quotes = OPENS.match(lines[place.lineno - 1], column)
            if quotes:
                first = " " * column + quotes[0]
                yield Block(place.lineno - 1, place.end_lineno, first, " " * column, COMMENT)


def in_python(lines):
    """The comments and docstrings of a Python text, and where a comment follows code."""
    places, after = [], []
    for token in tokenize.generate_tokens(io.StringIO("\n".join(lines)).readline):
        if token.type == tokenize.COMMENT:
            (row, column), code = token.start, token.line[:token.start[1]].rstrip()
            if code:
                after.append((row - 1, len(code)))
            elif token.string == "#" or token.string.startswith("# "):
                places.append((row - 1, column))
    return [*grouped(places, "#"), *docstrings(lines)], after


def in_c(lines):
    """The comments of a C text that end their line, and where one follows code."""
    text, blocks, places, after = "\n".join(lines), [], [], []
    for found in IN_C.finditer(text):
        begin, end = (text.count("\n", 0, place) for place in found.span())
        before = text[text.rfind("\n", 0, found.start()) + 1:found.start()]
        is_comment = found[0].startswith(("//", "/*"))
        if not is_comment or not lines[end].rstrip().endswith(found[0].split("\n")[-1].rstrip()):
            continue
        if before.strip():
            after.append((begin, len(before.rstrip())))
        elif found[0].startswith("//"):
            places.append((begin, len(before)))
        else:
            kind = BOX if begin == end else COMMENT
            blocks.append(Block(begin, end + 1, f"{before}/* ", f"{before} * ", kind))
    return [*blocks, *grouped(places, "//")], after


def prose(path, lines):
    """The blocks of a file in their order; and of each line whose comment follows code its number
    and how long it is without it. A line of an edit that may not be long is such a line too."""
    end = ending(path)
    if end == ".md":
        return [Block(0, len(lines), "", "", PAGE)], []
    if end == ".edit":
        return [], [(number, 0) for number, line in enumerate(lines) if IN_EDIT.match(line)]
    languages = {".py": in_python, ".c": in_c, ".h": in_c}
    read = languages.get(end, lambda lines: in_lines(lines, MARKS[end]))
    blocks, after = read(lines)
    return sorted(blocks), after
