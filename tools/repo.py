"""What the checks read of the repository: the crates that crates.txt lists, their functions and their `use` lines."""
import dataclasses
import fnmatch
import functools
import os
import pathlib
import re

ROOT = pathlib.Path(__file__).resolve().parent.parent
COMMENT = {".rt": re.compile(r"^[ \t]*//[^\n]*$", re.M), ".antt": re.compile(r"^[ \t]*--(?: [^\n]*)?$", re.M)}
TOKEN = r"[^\s(){}\[\].;,]+|\[\]"
GHOST_FIELD = re.compile(r"^[ \t]+(?:pub )?ghost \w+(?:: (?=.*\}[,;]$)| = (?=.*\};$))\{", re.M)     # a fact of a type, or a member of a trait
IMPL = re.compile(r"^(?:impl(?:<[^{]*?>)? (?:([\w:]+)(?:<[^{]*?>)? for )?|(?:pub )?trait )(\w+)[^{]*\{", re.M)
GHOST_USE = re.compile(r"\bghost\s+use\s+([^\s{};]+)\.\{([^{};]*)\}\s*;")
CODE_USE = re.compile(r"^[ \t]*(?:pub\s+)?use\s+[\w:]+(?:::\{[\w:,\s]*\})?(?:\s+as\s+\w+)?\s*;", re.M)
SPEC_USE = re.compile(r"^[ \t]*(?:unfoldable\s+)?(?:pub\s+)?use\s+([^\s{}]+?)(?:\.\{([^{}]*)\}|\s+as\s+(\S+))[ \t]*$", re.M)
OURS = re.compile(r"Rattle\.(\w+)\.specs\.([\w.-]+)")
LAWS = re.compile(r"Rattle\.(\w+)\.proofs\.([\w.-]+)")
CLAUSE = r"(?:requires|ensures)\s*\*?(?:\s+[^\s{}*]+)?\s*"     # what stands in front of a clause's brace: also *, and a name
BUILT = re.compile(r"(?:\.git|target|dist|reference/build|crates/[^/]+/out|(?:.+/)?__pycache__)(?:/|$)")
wrong = []


def read(path):
    return (ROOT / path).read_text()


def expect(right, message):
    if not right:
        wrong.append(message)


def name_of(file):
    return str(file.relative_to(ROOT))


def own_files(pattern):
    """The repository's files by that pattern, without what make, rt and Python build."""
    for folder, folders, names in os.walk(ROOT):
        inside = os.path.relpath(folder, ROOT)
        folders[:] = sorted(x for x in folders if not BUILT.match(os.path.normpath(f"{inside}/{x}")))
        yield from (pathlib.Path(folder) / x for x in sorted(names) if fnmatch.fnmatchcase(x, pattern))


@functools.cache
def listed():
    """The crates of crates.txt, in its order; a line has the name first, and maybe `staticlib` and counts behind it."""
    lines = (line.split("#")[0].split(":")[0].split() for line in read("crates.txt").splitlines())
    return [words[0] for words in lines if words]


def files(folder, ending):
    """The files of a folder of every listed crate."""
    for crate in listed():
        yield from sorted((ROOT / "crates" / crate / folder).rglob("*" + ending))


@functools.cache
def code(file):
    """The file's text with spaces for its lines of comment."""
    return COMMENT[file.suffix].sub(lambda m: " " * len(m.group(0)), file.read_text())


# Functions.

@dataclasses.dataclass
class Function:
    file: pathlib.Path
    name: str
    text: str       # from the attributes to the body, as it stands in the file
    code: str       # the same without comments
    trait: str = ""     # of which it is a method, if it is one

    def is_for_c(self):
        return re.search(r'\bextern\s*"C"|\bno_mangle\b', self.code)

    def has(self, clause):
        return re.search(rf"\b{clause}\s*\*?(\s+[^\s{{}}*]+)?\s*\{{", self.code)

    def parameters(self):
        """Pairs of name and type."""
        inside = re.search(r"\bfn\s+\w+[^(]*\((.*?)\)\s*(?:->|requires|ensures|$)", self.code, re.S).group(1)
        return [tuple(x.strip() for x in p.split(":")) for p in re.split(r",(?![^\[]*\])", inside) if p.strip()]

    def result(self):
        m = re.search(r"\)\s*->\s*([^\n{]+?)\s*(?:\n|\brequires|\bensures|$)", self.code)
        return m.group(1) if m else ""


def closing(text, brace):
    depth = 0
    for at in range(brace, len(text)):
        depth += (text[at] == "{") - (text[at] == "}")
        if depth == 0:
            return at
    return len(text)


def body_start(text, at):
    """Where the body of a function starts: at the first brace that no `requires` and no `ensures` opens, be it with a name or without. A
    function that a trait declares has none, and ends with a semicolon."""
    while True:
        brace = text.find("{", at)
        ended = text.find(";", at)
        while 0 <= ended and text.count("[", at, ended) > text.count("]", at, ended):
            ended = text.find(";", ended + 1)
        if 0 <= ended < brace:
            return ended
        if brace < 0 or not re.search(rf"\b{CLAUSE}$", text[at:brace]):
            return brace if brace >= 0 else len(text)
        at = closing(text, brace) + 1


def text_start(text, at):
    """Where the line starts, and the lines of attributes above it."""
    start = text.rfind("\n", 0, at) + 1
    above = text.rfind("\n", 0, max(start - 1, 0)) + 1
    return text_start(text, above) if text.startswith("#[", above) and above < start else start


def module_path(file):
    crate, _, *inner = file.relative_to(ROOT / "crates").with_suffix("").parts
    return "::".join([crate] + [x for x in inner if x not in ("lib", "main", "mod")])


def owner(text, at):
    """The type and the trait of the block of methods, or the trait that declares them, that a function at that place stands in."""
    for m in IMPL.finditer(text):
        if m.end() <= at < closing(text, m.end() - 1):
            return m.group(2), (m.group(1) or "").split("::")[-1]
    return "", ""


@functools.cache
def functions():
    """The functions of the listed crates, by crate::module::name; a method by crate::module::type::name, one of a trait with the trait before its name."""
    found = {}
    for file in files("src", ".rt"):
        text = code(file)
        for m in re.finditer(r"\bfn\s+(\w+)", text):
            kind, trait = owner(text, m.start())
            name = "::".join(x for x in (module_path(file), kind, trait, m.group(1)) if x)
            expect(name not in found, f"{name_of(file)} has {m.group(1)} twice")
            start, end = text_start(text, m.start()), body_start(text, m.end())
            found[name] = Function(file, m.group(1), file.read_text()[start:end].rstrip() + "\n", text[start:end], trait)
    return found


# `use` lines.

@dataclasses.dataclass
class Use:
    path: str
    names: list     # pairs of a name and what it is called in the file
    alias: str      # what the module itself is called in the file, or nothing


def pairs(listing):
    found = []
    for item in filter(None, (x.strip() for x in (listing or "").split(","))):
        name, *other = re.split(r"\s+as\s+", item)
        found.append((name, " as ".join(other) or name))
    return found


@functools.cache
def uses(file):
    """The file's `use` lines that give the words of contracts and definitions their meaning."""
    if file.suffix == ".rt":
        return [Use(m.group(1), pairs(m.group(2)), "") for m in GHOST_USE.finditer(file.read_text())]
    return [Use(m.group(1), pairs(m.group(2)), m.group(3) or "") for m in SPEC_USE.finditer(code(file))]


def use_lines(file):
    """All that a file of code brings in or renames, each on one line."""
    return [" ".join(m.group(0).split()) for m in re.finditer(r"\b(?:ghost\s+use|use|type)\s[^;]*;", code(file))]
