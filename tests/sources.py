"""The listed crates and what each cites, the functions in their sources and which of them each
calls, comments, and the names that docs/PROMISES.md and docs/DEMANDS.md name."""
import os
import re

LAYER = re.compile(r"# ---- (.*)")
IN_RATTLE = re.compile(r"(?<![\w:])(\w+)::")
IN_ANTT = re.compile(r"(?<![\w.])Rattle\.(\w+)\.")
OWN_MODULE = re.compile(r"^\s*(?:pub )?mod (\w+)", re.MULTILINE)
KIT = ("io",)
# what every crate has of the kit, and no line of crates.txt names
EVERYWHERE = {"std", "core"}
NOT_OURS = {".git", "target", "bin", "out", "__pycache__"}
PUBLIC = re.compile(r'^\s*pub (?:extern "C" )?fn (\w+)')
METHODS = re.compile(r"^impl(?:<[^<>]*>)? (\w+)(?:<[^<>]*>)? \{")
# the methods of a trait, which the toolchain names by both: `U8FromKind`
OF_TRAIT = re.compile(r"^impl(?:<[^<>]*>)? (\w+)(?:<(\w+)>)? for (\w+)(?:<[^<>]*>)? \{")
ANY = re.compile(r'^\s*(?:pub(?:\((?:super|crate)\))? )?(?:extern "C" )?fn (\w+)')
CALL = re.compile(r"((?:\w+::)*\w+)\(")
TURBOFISH = re.compile(r"::<[^<>()]*>")
# a clause that goes on in further lines, and a clause as a whole
OPEN_CLAUSE = re.compile(r"^\s*(?:requires|ensures)\b[^{]*\{$")
# a library that takes this asks something of the system, so no contract can say what it answers
ASKS_SYSTEM = re.compile(r"\bHostRuntime\b")
NAMED = re.compile(r"`(\S+?)`")


def written_files(root):
    """Every file of the tree that is text and is not built: its path, and its text."""
    for folder, folders, names in os.walk(root):
        folders[:] = sorted(set(folders) - NOT_OURS)
        for path in (os.path.join(folder, name) for name in sorted(names)):
            try:
                with open(path, encoding="utf-8") as file:
                    yield path, file.read()
            except (UnicodeDecodeError, OSError):
                continue


def lines_of_crates(root):
    """Each crate of crates.txt, in its order: its layer, which is the heading above it, its name,
    and what the line says it stands on."""
    layer = None
    for line in open(os.path.join(root, "crates.txt"), encoding="utf-8"):
        heading = LAYER.match(line)
        layer = heading[1].strip() if heading else layer
        name, _, below = line.split("#")[0].partition(":")
        if name.strip():
            yield layer, name.split()[0], below.split()


def listed(root):
    """The crates of crates.txt, in its order."""
    return [name for _, name, _ in lines_of_crates(root)]


def for_c(root):
    """The crates that crates.txt has as static libraries, for C."""
    with open(os.path.join(root, "crates.txt"), encoding="utf-8") as file:
        heads = [line.split("#")[0].partition(":")[0].split() for line in file]
    return [words[0] for words in heads if words[1:2] == ["staticlib"]]


def texts(root, crate):
    """The Rattle and antt files of a crate, each with its text without comments. Must-fail edits
    are none of them."""
    for part in ("src", "specs", "proofs"):
        for folder, _, files in sorted(os.walk(os.path.join(root, "crates", crate, part))):
            for file in sorted(files):
                comment = {".rt": r"//.*", ".antt": r"--.*"}.get(os.path.splitext(file)[1])
                if comment:
                    path = os.path.join(folder, file)
                    yield path, re.sub(comment, "", open(path, encoding="utf-8").read())


def cited(root, crate):
    """The crates, and the kit's libraries, whose modules the files of a crate name."""
    found, known, own = set(), {*listed(root), *KIT}, {crate}
    for path, text in texts(root, crate):
        found |= set(IN_ANTT.findall(text))
        if path.endswith(".rt"):
            found |= known & set(IN_RATTLE.findall(text))
            own |= set(OWN_MODULE.findall(text))
    return found - own - EVERYWHERE


def rattle_files(root):
    """Each source file, and whether it is a program's."""
    for name in listed(root):
        source = os.path.join(root, "crates", name, "src")
        program = os.path.exists(os.path.join(source, "main.rt"))
        for folder, _, files in sorted(os.walk(source)):
            for file in sorted(files):
                if file.endswith(".rt"):
                    yield os.path.join(folder, file), program


def owned(lines):
    """Each line, with the type whose methods it stands among, as a list of no or one name."""
    owner = []
    for line in lines:
        methods, trait = METHODS.match(line), OF_TRAIT.match(line)
        if methods or trait:
            owner = [methods[1] if methods else f"{trait[3][0].upper()}{trait[3][1:]}{trait[1]}{trait[2] or ''}"]
        elif line.startswith("}"):
            owner = []
        yield owner, line


def functions(path):
    """Each public function of a file: its line, its name, before which a method has its type's, and
    its text up to its body."""
    lines = open(path, encoding="utf-8").read().split("\n")
    for number, (owner, text) in enumerate(owned(lines)):
        found = PUBLIC.match(text)
        if found:
            yield number + 1, "::".join([*owner, found[1]]), "\n".join(lines[number:body_at(lines, number) + 1])


CONVERSION = re.compile(r"^impl From<(\w+)> for (\w+) \{$")


FROM_GIVES = re.compile(r"^    ghost from_gives = \{ (.*) \};$", re.MULTILINE)


def conversions(root):
    """The conversions of the libraries: each by the name that the toolchain gives its function,
    `wire::U8FromRefusal::from`, its file, what it promises, which is its impl's `from_gives`, and
    the first paragraph of the comment above it."""
    for path in promising(root):
        with open(path, encoding="utf-8") as file:
            lines = file.read().split("\n")
        for number, found in enumerate(map(CONVERSION.match, lines)):
            if found:
                name = f"{found[2][0].upper()}{found[2][1:]}From{found[1]}"
                gives = FROM_GIVES.search("\n".join(lines[number:lines.index("}", number)]))
                comment = comment_above(lines, number, "//")
                yield "::".join([*module(root, path), name, "from"]), path, gives[1] if gives else "", comment[0] if comment else ""


def body_at(lines, number):
    """Where the body of the function that begins at a line begins."""
    end = number
    while lines[end].strip() != "{" and not (lines[end].endswith(" {") and not OPEN_CLAUSE.match(lines[end])):
        end += 1
    return end


def module(root, path):
    """The names that lead to a file's functions: its crate, and its module where it is not the
    crate's root."""
    crate, _, *rest = os.path.relpath(path, os.path.join(root, "crates")).removesuffix(".rt").split(os.sep)
    return [crate, *(name for name in rest if name != "lib")]


def library_files(root):
    """The files of the libraries, each with its crate."""
    return [(module(root, path)[0], path) for path, program in rattle_files(root) if not program]


def asking(root):
    """The libraries that ask something of the system."""
    found = set()
    for crate, path in library_files(root):
        with open(path, encoding="utf-8") as file:
            found |= {crate} if ASKS_SYSTEM.search(re.sub(r"//.*", "", file.read())) else set()
    return found


def promising(root):
    """The files of the libraries that promise something of their own. What a static library exports
    says again what another library promises (tests/promises), and what the system gives, no
    contract can say."""
    apart = {*for_c(root)} | asking(root)
    return [path for crate, path in library_files(root) if crate not in apart]


def public(root):
    """The public functions of the libraries, by their whole names."""
    return {"::".join([*module(root, path), name]) for path in promising(root)
            for _, name, _ in functions(path)}


def bodies(root, crate):
    """Each function of a crate, also the private ones, by its whole name, with its text up to the
    next one."""
    found = {}
    for path, _ in rattle_files(root):
        place, name = module(root, path), None
        for owner, line in owned(open(path, encoding="utf-8") if place[0] == crate else ()):
            start = ANY.match(line)
            name = "::".join([*place, *owner, start[1]]) if start else name
            if name and not line.lstrip().startswith("//"):
                found[name] = found.get(name, "") + ("" if start else line)
    return found


def reached(root, crate):
    """For each function of a crate the functions of the crate that it calls, and those that they
    call, and so on.

    A call is told by its name alone: a path must be the end of the function's whole name, and a
    bare name one in the same file or, where there is none, one that is imported there. A method is
    called by its name, also that of a trait through a type parameter.
    """
    texts = bodies(root, crate)

    def meant(caller, path):
        words = re.sub(r"^[A-Z]::", "", path.removeprefix("super::")).split("::")
        beside = "::".join([*caller.split("::")[:-1], path])
        if len(words) == 1 and beside in texts:
            return {beside}
        return {name for name in texts if name.split("::")[-len(words):] == words}

    calls = {name: set().union(*(meant(name, path) for path in CALL.findall(TURBOFISH.sub("", text)))) for name, text in texts.items()}
    for middle in calls:
        for name in calls:
            calls[name] |= calls[middle] if middle in calls[name] else set()
    return calls


def comment_above(lines, number, mark):
    """The comment that ends above the line of that index, a text for each of its paragraphs."""
    first = number
    while first > 0 and lines[first - 1].lstrip().startswith(mark):
        first -= 1
    said = [line.lstrip().removeprefix(mark).strip() for line in lines[first:number]]
    return [text.replace("\n", " ") for text in "\n".join(said).split("\n\n") if text]


def named(root):
    """All that stands in back-quotes in the documents that say what is promised."""
    names = set()
    for file in ("PROMISES.md", "DEMANDS.md"):
        with open(os.path.join(root, "docs", file), encoding="utf-8") as text:
            names |= set(NAMED.findall(text.read()))
    return names


def documented(root):
    """Each public function of a library, in the order of crates.txt: its whole name, its file, its
    text up to its body, and its promise, which is the first paragraph of the comment above it."""
    for path in promising(root):
        lines = open(path, encoding="utf-8").read().split("\n")
        for number, name, head in functions(path):
            first = number - 1
            while lines[first - 1].lstrip().startswith("#["):
                first -= 1
            comment = comment_above(lines, first, "//")
            yield "::".join([*module(root, path), name]), path, head, comment[0] if comment else ""
