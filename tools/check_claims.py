#!/usr/bin/env python3
"""Keeps docs/CLAIMS.md, README.md, include/badge.h and the tests true to the crates.

    check_claims.py          checks, and says what is wrong
    check_claims.py --pin    first writes the table of numbers in README.md and tools/pinned.txt anew

- Every function has an `ensures`; one that C calls, and the entry points below those, has no `requires`. The two pages name only functions
  of the listed crates, and files, crates, C calls and make targets that exist; README.md lists every crate and every file of definitions
  that the claims rest on.
- README.md's table and the header have each number of crates/refusals/src/lib.rt with its name and meaning, and the vectors each number.
- The headers declare exactly the functions that C calls, each with its parameters' names, order and types. Each of crate badge_c says of
  its number what the function that it calls says of its answer, and has its parameters and its other clauses.
- The words of contracts and definitions mean what the kit says (tools/words.py).
- No other page claims anything, and no file stands in for one that make, Python or a reviewer reads.
- What the claims rest on is as it was reviewed (tools/pins.py, tools/pinned.txt)."""
import pathlib
import re
import sys

sys.path.append(str(pathlib.Path(__file__).resolve().parent))     # last: nothing beside this file stands in for Python's own
import pins  # noqa: E402
import repo
import words
from repo import ROOT, expect, functions, listed, name_of, read

PAGES = ["docs/CLAIMS.md", "README.md"]
KNOWN_PAGES = ["README.md", "docs/CLAIMS.md", "docs/DECISIONS.md", "docs/DESIGN-PASS.md", "docs/LOOK-BACK.md", "docs/PORT.md", "reference/README.md", "tests/vectors/README.md"]
BUILT = ("target/", "dist/", "reference/build")
TABLE_START, TABLE_END = "<!-- numbers -->\n", "<!-- end of numbers -->\n"
ENTRIES = ["judge::run::judge", "pair::reader::pair", *(f"message_{n}::message_{n}" for n in (1, 3, 5, 7))]
HEADERS = {"include/badge.h": "badge_c", "tests/c/primitives.h": "primitives"}
LETTERS = {"e": "E", "kappa": "K", "seed": "L"}     # document 01's letters, which the header has and code may not
NUMBERS = {"u8": "uint8_t", "u32": "uint32_t", "u64": "uint64_t", "i64": "int64_t", "usize": "size_t", "": "void"}
FINDINGS, KINDS = range(1, 5), range(1, 9)
KEY, FILE = range(1, 6), [12, 7, 10, 13, 14, 16, 15, 17, 18, 19]
GIVEN = {"judge": [0, *KEY, *FILE], "judge_lent": [0, *KEY, 11, *FILE], "lent": range(1, 12), "pair": [*KEY, 11, *range(20, 24)]}


def quoted(page):
    return dict.fromkeys(re.findall(r"`([^`\n]+)`", read(page)))


def named_functions(page):
    return [n for n in quoted(page) if re.fullmatch(r"[a-z0-9_]+(::\w+)+", n)]


# Functions and what the pages name.

def called_from_c(name):
    return re.match(r"badge::(\w+::)*badge_", name)


def check_functions(found):
    named = named_functions("docs/CLAIMS.md")
    declared = {(name.split("::")[-2], f.name) for name, f in found.items() if f.has("ensures")}
    for name, function in found.items():
        called = (function.file.name, function.name) != ("main.rt", "main")
        of_trait = (function.trait, function.name) in {("Display", "fmt"), ("Default", "default"), *declared}     # the trait's own clauses hold of these
        expect(function.has("ensures") or of_trait or not called, f"{name} has no `ensures`: whoever calls it learns nothing")
        entry = function.is_for_c() or name in ENTRIES or called_from_c(name) or (name in named and not function.parameters())
        expect(not (entry and function.has("requires")), f"{name} is an entry point and has a `requires`")
    for name in ENTRIES:
        expect(name in found, f"the entry point {name} is not there")
    for page in PAGES:
        for name in named_functions(page):
            expect(name in found, f"{page} names {name}, which no listed crate has")
    expect(named_functions("docs/CLAIMS.md"), "docs/CLAIMS.md names no theorem")


CALLED = {**{f"badge_message_{n}": f"badge::messages::badge_message_{n}" for n in (1, 3, 5, 7)},
          **{f"badge_message_{n}_lent": f"message_{n}::message_{n}" for n in (1, 3, 5, 7)},
          "badge_judge": "badge::badge_judge", "badge_judge_lent": "judge::run::judge",
          "badge_pair": "badge::pairs::badge_pair", "badge_pair_lent": "badge::pairs::badge_pair_lent"}
LENT = {"hash1": "hash1_of", "hash2": "hash2_of", "secret": "bits_of", "uv": "errors_of"}     # what a finding leaves in each lent list


def clauses(function):
    found = [" ".join(x.split()) for x in re.findall(r"^ +ensures(?: \w+)? \{ (.*) \}$", function.code, re.M)]
    expect(len(found) == len(re.findall(rf"\b{repo.CLAUSE}\{{", function.code)), f"{name_of(function.file)}: {function.name} has a clause that is no `ensures` on a line of its own")
    return found


def in_numbers(clause):
    """What a call of C promises where the function that it calls promises this of its answer."""
    said, judged, read = (re.fullmatch(x, clause) for x in (r"said result ≡ (answer_of .*)", r"verdict_of result ≡ (.*)", r"Reads (\(.*\)) result hash1\.old.*"))
    if said:
        return [f"result ≡ code_of ({said[1]})"]
    if judged:
        return [f"result ≡ number_of ({judged[1]})"]
    if read:
        return [f"result ≡ finding_code (says {read[1]})", *(f"{x}.new ≡ {of} {read[1]} {x}.old" for x, of in LENT.items())]
    return [clause]


def check_calls(found):
    """Each call of C against the function that it calls."""
    calls = {n.removeprefix("badge_c::"): f for n, f in found.items() if n.startswith("badge_c::")}
    expect(sorted(calls) == sorted(CALLED), f"crate badge_c has other functions than {', '.join(CALLED)}")
    for name, inner in CALLED.items():
        expect(inner in found, f"{inner}, which badge_c::{name} calls, is not there")
        if name in calls and inner in found:
            one, other = calls[name], found[inner]
            right = sorted(x for clause in clauses(other) for x in in_numbers(clause))
            expect(sorted(clauses(one)) == right, f"badge_c::{name} promises something else than {inner}, which it calls")
            wide = [(x, {"u64": "usize"}.get(kind, kind)) for x, kind in one.parameters()]
            expect(wide == other.parameters(), f"badge_c::{name} has other parameters than {inner}, which it calls")
            expect(re.search(rf"\b{inner}\(", body_of(one)), f"badge_c::{name} does not call {inner}")


def body_of(function):
    text = repo.code(function.file)
    start = text.index(function.code) + len(function.code)
    return text[start:repo.closing(text, text.index("{", start)) + 1]


def check_modules():
    """Every file of src/ is a part of its crate: the crate's root names it, or the file of the module above it."""
    for crate in listed():
        folder = ROOT / "crates" / crate / "src"
        root = folder / ("main.rt" if (folder / "main.rt").exists() else "lib.rt")
        for file in sorted(folder.rglob("*.rt")):
            above = root if file.parent == folder else file.parent.with_suffix(".rt")
            named = above.exists() and re.search(rf"^(?:pub )?mod {file.stem};$", repo.code(above), re.M)
            expect(file == root or named, f"{name_of(file)} is a file that no `mod` line names: nothing proves it")


def check_files():
    for page in PAGES:
        for n in quoted(page):
            if n.startswith(BUILT) or not re.fullmatch(r"[\w.*/-]+", n) or not ("/" in n or re.search(r"\.(antt|rt|md|h|c|py|txt)$", n)):
                continue
            places = [n.rstrip("/"), "crates/*/" + n.rstrip("/"), "crates/*/specs/" + n]
            expect(any(any(ROOT.glob(x)) for x in places), f"{page} names {n}, which is not there")


def check_trusted():
    for file in pins.unread(named_functions("docs/CLAIMS.md"), "README.md", "Who audits the claims"):
        expect(False, f"README.md does not tell an auditor of {name_of(file)}, whose definitions the claims rest on")


def check_crates():
    rows = re.findall(r"^\| (`[a-z0-9_`, ]+`) \|", read("README.md"), re.M)
    shown = [x for row in rows for x in re.findall(r"`(\w+)`", row)]
    for n in listed():
        expect(n in shown, f"README.md's table of crates lacks {n}")
    for n in shown:
        expect(n in listed(), f"README.md's table of crates names {n}, which crates.txt does not list")


def check_commands():
    header, known = "".join(map(read, HEADERS)), pins.rules()
    for page in PAGES:
        for n in re.findall(r"\bbadge_[a-z0-9_]+\b", read(page)):
            expect(f" {n}(" in header or n in listed(), f"{page} names {n}, which no header declares")
        for n in re.findall(r"(?:`|^ +)make ([a-z-]+)", read(page), re.M):
            expect(n in known, f"{page} names `make {n}`, which the Makefile has not")
    for other in (*(x + y for x in ("", "reference/") for y in ("GNUmakefile", "makefile", "Makefile.sh", "RCS", "SCCS")), ".gitattributes"):
        expect(not (ROOT / other).exists(), f"make reads {other} in place of the Makefile, or a reviewer is shown less by it")
    pages = [name_of(x) for x in repo.own_files("*.md") if not name_of(x).startswith("docs/landings/")]
    expect(sorted(pages) == sorted(KNOWN_PAGES), f"another page than {KNOWN_PAGES}")


# The headers.

def in_c(name, kind):
    """A parameter as C has it."""
    m = re.fullmatch(r"&(mut )?\[(\w+)(?:; (\d+))?\]", kind)
    if not m:
        return f"{NUMBERS.get(kind, kind)} {name}"
    changed, number, length = m.groups()
    start = ("" if changed else "const ") + NUMBERS.get(number, number)
    return f"{start} {name}[{length}]" if length else f"{start} *{name}, size_t {name}_length"


def declaration(function, letters):
    parameters = ", ".join(in_c(letters.get(name, name), kind) for name, kind in function.parameters())
    return f"{NUMBERS.get(function.result(), function.result())} {function.name}({parameters or 'void'})"


def check_headers(found):
    for header, crate in HEADERS.items():
        text = re.sub(r"/\*.*?\*/", "", read(header), flags=re.S)
        said = [" ".join(x.split()) for x in re.findall(r"^\w+ \w+\([^;{}]*\)(?=;)", text, re.M)]
        letters = LETTERS if crate == "badge_c" else {}
        right = [declaration(f, letters) for n, f in found.items() if n.startswith(crate + "::") and f.is_for_c()]
        for x in sorted(set(right) - set(said)):
            expect(False, f"{header} does not declare what C calls in crate {crate}: {x}")
        for x in sorted(set(said) - set(right)):
            expect(False, f"{header} declares what crate {crate} has not: {x}")
        expect(len(said) == len(set(said)), f"{header} declares a function twice")
        rest = re.sub(r"^\w+ \w+\([^;{}]*\);|^enum(?: \w+)? \{[^{}]*\};|^#(?:ifndef|define) \w+_H$|^#include <std(?:def|int)\.h>$", "", text, flags=re.M)
        rest = rest.replace('#ifdef __cplusplus\nextern "C" {\n#endif', "").replace("#ifdef __cplusplus\n}\n#endif", "").replace("#endif", "", 1)
        expect(not rest.strip(), f"{header} has what is neither a number nor a call: {rest.strip()[:80]}")


# The numbers of refusals.

def numbers():
    """Rows of number, name, where it is given and when, as crates/refusals/src/lib.rt says."""
    rows, where, comments = [], "", []
    body = re.search(r"^pub enum Refusal \{\n(.*?)^\}", read("crates/refusals/src/lib.rt"), re.M | re.S).group(1)
    for line in map(str.strip, body.splitlines()):
        variant = re.match(r"(\w+) = (\d+),", line)
        if variant:
            where = comments[-2] if len(comments) > 1 else where
            name = re.sub(r"(?<=[a-z])(?=[A-Z])|(?<=^H)(?=[A-Z])", "_", variant.group(1)).upper()
            rows.append((int(variant.group(2)), name, where, comments[-1]))
            comments = []
        elif line.startswith("// "):
            comments.append(line[3:].rstrip("."))
        else:
            where, comments = "", []
    return rows


def number_table():
    rows = "".join(f"| {n} | `{name}` | {where} | {when} |\n" for n, name, where, when in numbers())
    return TABLE_START + "| Number | Name | Where | When |\n|---|---|---|---|\n" + rows + TABLE_END


def check_numbers():
    page, header = read("README.md"), read("include/badge.h")
    expect([row[0] for row in numbers()] == list(range(1, len(numbers()) + 1)), "crates/refusals: the numbers are not 1, 2, 3 ..")
    expect(number_table() in page, "README.md's table of numbers is not that of crates/refusals: run `make pin`")
    in_ascii = str.maketrans({"τ": "tau", "Ω": "Omega", "Γ": "_Gamma", "π": "_pi", "ψ": "_psi", "·": " "})
    for n, name, _, when in numbers():
        m = re.search(rf"^ +BADGE_{name} = (\d+),? +/\* (.*) \*/$", header, re.M)
        said = m and (int(m.group(1)), m.group(2).lower())
        expect(said == (n, when.translate(in_ascii).lower()), f"include/badge.h does not say of {name} what crates/refusals says: {n}, {when}")


def check_vectors():
    """The vectors of each call have every number that it can answer, and every finding and kind of hash input that can collide."""
    answers = {file.stem: [x["expect"] for x in examples if "expect" in x] for file, examples in pins.vectors().items()}
    for stem, given in GIVEN.items():
        seen = [x.get("refused") if isinstance(x, dict) else x for x in answers.get(stem, [])]
        for n in given:
            expect(n in seen, f"no vector of tests/vectors/{stem}.jsonl is answered with the number {n}")
    found = [x for several in answers.values() for x in several if isinstance(x, dict)]
    for n in FINDINGS:
        expect(any(x.get("finding") == n for x in found), f"no vector of tests/vectors has finding {n}")
    for n in KINDS:
        expect(any(x.get("kind") == n for x in found), f"no vector of tests/vectors has a collision of kind {n}")


def main():
    if sys.argv[1:] == ["--pin"]:
        page = read("README.md")
        start, end = page.index(TABLE_START), page.index(TABLE_END) + len(TABLE_END)
        (ROOT / "README.md").write_text(page[:start] + number_table() + page[end:])
        pins.write(named_functions("docs/CLAIMS.md"))
    found = functions()
    check_functions(found)
    check_calls(found)
    check_modules()
    check_files()
    check_trusted()
    check_crates()
    check_commands()
    check_headers(found)
    check_numbers()
    check_vectors()
    words.check_words()
    kept = pins.check(named_functions("docs/CLAIMS.md"))
    for message in dict.fromkeys(repo.wrong):
        print(message)
    print(f"claims: {len(found)} functions, {len(numbers())} numbers; as pinned {kept['contract']} contracts, {kept['definitions']} files of "
          f"definitions, {kept['claim']} sentences; {len(repo.wrong)} wrong")
    sys.exit(1 if repo.wrong else 0)


main()
