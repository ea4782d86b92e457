"""What tools/pinned.txt holds: the reviewed state of whatever a claim rests on, a heading and a text for each, and what to read where one
has changed."""
import collections
import functools
import hashlib
import json
import re

from repo import LAWS, OURS, ROOT, expect, functions, listed, name_of, read, use_lines, uses

PINNED = ROOT / "tools" / "pinned.txt"
CLAIMS = "docs/CLAIMS.md"
TESTS = ("Makefile", ".ci/*", "tools/**/*", "tests/**/*", "reference/**/*", "include/**/*", "examples/**/*",
         *(f"crates/*/{x}" for x in ("stdin", "stdout", "args", "status", "data/**/*")), "HANDLES")
APART = ("tools/pinned.txt", "include/badge.h")     # pinned by themselves
BUILT = re.compile(r"^reference/build/|/__pycache__/|^tests/vectors/[^/]*\.jsonl$")
REVIEW = {
    "contract": "read it beside the sentence of docs/CLAIMS.md that names it, and this sentence's premises and limits",
    "uses": "see that each word of the file's contracts still means what docs/CLAIMS.md says of them",
    "type": "read the definitions that give its cases document 01's numbers and values",
    "definitions": "read it beside documents 01 and 02 (README.md, Who audits the claims), and run `make definitions`",
    "claims": "see that each row still stands where its words belong, and that no heading claims anything",
    "claim": "read the contract of the theorem that it names, and see that this says no more, under no fewer premises",
    "header": "read what it says of each call beside docs/CLAIMS.md",
    "vectors": "see that none was lost that another does not replace",
    "edits": "see that the check still refuses what each edit was to rule out",
    "target": "see that `make tests` still runs all that it ran",
    "program": "no contract says what it does: read it beside the sentence of docs/CLAIMS.md on that program",
    "page": "see that it claims no more than docs/CLAIMS.md",
    "tests": "see that the files still test what they tested",
}


def digest(data):
    return hashlib.sha256(data).hexdigest()


# Contracts, and the definitions behind them.

def taken(file):
    """What the `use` lines take from specifications of the listed crates: crate, module, name, and what it is called in the file."""
    for use in uses(file):
        m = OURS.fullmatch(use.path)
        if m and m.group(1) in listed():
            for name, here in use.names or [("", use.alias)]:
                yield m.group(1), m.group(2), name, here


def words(text, file):
    """The words of a text, a contract's or a type's, that come from specifications of the listed crates."""
    tokens = set(re.findall(r"[^\s(){},;.]+", text))
    return sorted(x for x in taken(file) if tokens.issuperset(part for part in x[3].split("◌") if part))


def contract(function):
    """The function's text but for what helps its proof, and where its words come from."""
    text = re.sub(r"^#\[tactic\(.*\)\]\n", "", function.text, flags=re.M)
    sources = (f"  {here}: {crate} {module}{'' if name == here else ' ' + name}\n" for crate, module, name, here in words(function.text, function.file))
    return text + "".join(sources)


def reached(named):
    """The files of definitions and the types that the contracts' words come from, followed through the files' own `use` lines."""
    named = list(named)
    types = {kind for function in named for kind in kinds(head(function), function.file)}
    todo = [x[:2] for function in named for x in words(function.text, function.file)]
    todo += [x[:2] for kind in types for x in words(*declared(*kind))]
    found = set()
    while todo:
        crate, module = todo.pop()
        file = ROOT / "crates" / crate / "specs" / (module.replace(".", "/") + ".antt")
        if module.startswith("declared."):
            kind = crate, next(x for x in module.split(".") if x[0].isupper())
            if kind not in types:
                types.add(kind)
                todo += [x[:2] for x in words(*declared(*kind))]
        elif not file.exists():
            expect(False, f"a definition of {name_of(file)} is taken, and the file is not there")
        elif file not in found:
            found.add(file)
            laws = [use.path for use in uses(file) if LAWS.fullmatch(use.path) and not use.path.startswith("Rattle.std.")]
            expect(not laws, f"{name_of(file)} has definitions that are pinned, and takes words from {', '.join(laws)}, which no pin follows")
            todo += [x[:2] for x in taken(file)]
    return sorted(found), sorted(types)


def head(function):
    """The function's parameters and result."""
    return re.split(r"\b(?:requires|ensures)\b", function.code)[0]


@functools.cache
def declaring(name):
    """The crates whose code declares a type of that name."""
    return [x for x in listed() if any(re.search(rf"^pub (?:struct|enum) {name}\b", file.read_text(), re.M) for file in (ROOT / "crates" / x / "src").rglob("*.rt"))]


def kinds(text, file):
    """The types of listed crates that a text of code names, and those that these are made of: a fact of a type holds of each of its values."""
    brought = set(re.findall(r"\w+", " ".join(use_lines(file)))) | {file.relative_to(ROOT / "crates").parts[0]}
    found, todo = set(), [(x, brought) for x in re.findall(r"\b[A-Z]\w*", text)]
    while todo:
        name, near = todo.pop()
        for crate in near.intersection(declaring(name)):
            if (crate, name) not in found:
                found.add((crate, name))
                inner, place = declared(crate, name)
                words_there = set(re.findall(r"\w+", " ".join(use_lines(place)))) | {crate}
                todo += [(x, words_there) for x in re.findall(r"\b[A-Z]\w*", inner)]
    return found


def declared(crate, name):
    """The text of a type that the crate's code declares, with the facts that hold of it, and its file."""
    root = ROOT / "crates" / crate / "src"
    found = [(m.group(0), file) for file in sorted(root.rglob("*.rt"))
             for m in re.finditer(rf"^pub (?:struct|enum) {name}\b.*?^\}}", file.read_text(), re.M | re.S)]
    if len(found) == 1:
        return found[0]
    expect(False, f"the type {name} of crate {crate} is not there once")
    return "not found", root / "lib.rt"


def chosen(named):
    """The functions that docs/CLAIMS.md names and those that C calls."""
    return {n: f for n, f in sorted(functions().items()) if n in named or f.is_for_c()}


def unread(named, page, heading):
    """The files of definitions behind those functions' contracts that no row or paragraph under the heading names."""
    told = [" ".join(text) for h, text in blocks(page) if h == heading and text]
    return [x for x in reached(chosen(named).values())[0]
            if not any(f"{name_of(x.parent)}/" in text and f"{x.name}`" in text for text in told)]


def pinned_contracts(named):
    """The contracts of those functions, the `use` lines of their files, and what their words rest on."""
    contracts = chosen(named)
    definitions, types = reached(contracts.values())
    yield from ((f"contract {n}", contract(f)) for n, f in contracts.items())
    yield from ((f"uses {name_of(x)}", "\n".join(use_lines(x))) for x in sorted({f.file for f in contracts.values()}))
    yield from ((f"type {crate}::{name}", declared(crate, name)[0]) for crate, name in types)
    yield from ((f"definitions {name_of(x)}", digest(x.read_bytes())) for x in definitions)


# The prose of the claims.

def blocks(page):
    """The page's headings, each without words, and its paragraphs, points and rows: the heading that each stands under, and its words."""
    heading, found, goes_on = "", [], False
    for line in read(page).splitlines():
        if line.startswith("#"):
            heading, goes_on = line.strip("# "), False
            found.append((heading, []))
        elif not line.strip() or set(line) <= set("|-: "):
            goes_on = False
        elif goes_on and not line.startswith(("|", "- ")):
            found[-1][1].extend(line.split())
        else:
            found.append((heading, line.split()))
            goes_on = True
    return found


def pinned_claims():
    seen, order = collections.Counter(), []
    for heading, text in blocks(CLAIMS):
        start = " ".join([x for x in text if x not in "|-"][:9])
        title = f"claim {heading}: {start}"
        seen[title] += 1
        order.append(title if text else f"heading {heading}")
        if text:
            yield title + (f" ({seen[title]})" if seen[title] > 1 else ""), digest(" ".join(text).encode())
    yield "claims in order", "\n".join(order)
    yield from ((f"page {page}", digest(read(page).encode())) for page in (CLAIMS, "README.md", *(f"docs/{x}.md" for x in ("DECISIONS", "DESIGN-PASS", "LOOK-BACK", "PORT"))) if (ROOT / page).exists())


# Tests.

def kind(vector):
    """What a vector is an example of."""
    said = vector.get("expect", {})
    said = said if isinstance(said, dict) else {"number": said}
    shown = [f"{k} {vector[k]}" for k in ("what", "call", "modulus") if k in vector]
    shown += [f"{k} {str(said[k]):>2}" for k in ("number", "refused", "finding", "kind") if k in said]
    return ", ".join(shown + ["message"] * ("message" in said))


def vectors():
    """The vectors of each file; one that stands there twice counts once."""
    files = sorted((ROOT / "tests/vectors").glob("*.jsonl"))
    return {x: [json.loads(line) for line in sorted(set(x.read_text().splitlines())) if line.strip()] for x in files}


def pinned_vectors():
    for file, examples in vectors().items():
        counts = collections.Counter(map(kind, examples))
        rows = [f"{n:4} {what}".rstrip() for what, n in sorted(counts.items())]
        yield f"vectors {name_of(file)}", "\n".join(rows + [digest(file.read_bytes())])


def pinned_edits():
    for folder in sorted((ROOT / "crates").glob("*/must-fail")):
        rows = [f"{x.stem} {digest(x.read_bytes())}" for x in sorted(folder.glob("*.edit"))]
        yield f"edits crates/{folder.parent.name}", "\n".join(rows)


def rules():
    """The Makefile's explicit rules: a target's prerequisites and recipes, as they stand there."""
    found = collections.defaultdict(str)
    for m in re.finditer(r"^([\w-]+):(?!=).*\n(?:\t.*\n)*", read("Makefile"), re.M):
        found[m.group(1)] += m.group(0)
    return found


def targets():
    """What `make tests` makes, by name."""
    known, todo, found = rules(), ["tests"], []
    while todo:
        target = todo.pop(0)
        if target in known and target not in found:
            found.append(target)
            todo += known[target].splitlines()[0].split(":", 1)[1].split()
    return found


def pinned_tests():
    known = rules()
    yield from ((f"target {target}", known[target]) for target in targets())
    files = [x for form in TESTS for x in sorted(ROOT.glob(form)) if x.is_file() or x.is_symlink()]
    yield "tests", "\n".join(f"{name_of(x)} {digest(x.read_bytes() if x.is_file() else b'')}" for x in files if name_of(x) not in APART and not BUILT.search(name_of(x)))
    yield from ((f"program {name_of(x)}", digest(x.read_bytes())) for x in sorted((ROOT / "crates").glob("*/src/main.rt")))


# The file.

def pins(named):
    header = [(f"header {name}", digest((ROOT / name).read_bytes())) for name in ("include/badge.h",)]
    return dict([*pinned_contracts(named), *pinned_claims(), *header, *pinned_vectors(), *pinned_edits(), *pinned_tests()])


def shown(new):
    head = "What was reviewed. `make pin` writes this file; read its difference before you commit it.\n"
    return head + "".join(f"\n== {title}\n{text.rstrip()}\n" for title, text in new.items())


def write(named):
    PINNED.write_text(shown(pins(named)))


def difference(old, new):
    """The lines that are only in one of two texts, the first few of them, shortened."""
    old, new = old.rstrip().splitlines(), new.rstrip().splitlines()
    lines = [f"- {x.strip()}" for x in old if x not in new] + [f"+ {x.strip()}" for x in new if x not in old]
    return "; ".join(x[:80] for x in lines[:4]) or "order"


def check(named):
    new = pins(named)
    old = dict(x.split("\n", 1) for x in PINNED.read_text().split("\n== ")[1:]) if PINNED.exists() else {}
    for title in dict.fromkeys([*old, *new]):
        if title not in old:
            change = "is not pinned yet"
        elif title not in new:
            change = "is no longer there"
        elif old[title].rstrip() != new[title].rstrip():
            change = f"has changed ({difference(old[title], new[title])})"
        else:
            continue
        expect(False, f"{title} {change}: {REVIEW[title.split()[0]]}; then run `make pin`")
    expect(PINNED.exists() and PINNED.read_text() == shown(new), "tools/pinned.txt is not what `make pin` writes")
    return collections.Counter(title.split()[0] for title in new)
