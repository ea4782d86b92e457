#!/usr/bin/env python3
"""Tries the gate itself: each change here must turn the checks red, with the message that says why.

The changes are made one at a time in copies of the repository's files. A change marked `anew` is seen even if whoever makes it writes
tools/pinned.txt anew, the others by what is pinned. A change that no longer applies is a failure. The gate's own script is run last, with
stand-ins for rt, rattle and make."""
import concurrent.futures
import itertools
import os
import pathlib
import re
import shutil
import subprocess
import sys
import tempfile

ROOT = pathlib.Path(__file__).resolve().parent.parent
CLAIMS, TIDY = "tools/check_claims.py", "tools/check_tidy.py"
EQUAL = "ghost use Rattle.std.specs.Prelude.{◌≡◌, length};"
CALLS, PAGE, HEADER, VECTORS = "crates/badge_c/src/lib.rt", "docs/CLAIMS.md", "include/badge.h", "tests/vectors/judge.jsonl"
WORDS = "crates/protocol/specs/Judge.antt"
EDIT = str(sorted(ROOT.glob("crates/*/must-fail/*.edit"))[0].relative_to(ROOT))
EDITS = f"edits {EDIT.split('/must-fail')[0]} has changed"
LINE = r"^.*\n"
changes = []


def change(label, message, path, make, check=CLAIMS, anew=False):
    """A file's change, made by a function from its text to another text, or to nothing where the file goes."""
    changes.append((label, message, path, make, check, anew))


def put(old, new):
    """Puts a text in the place of the first that a pattern finds."""
    return lambda text: re.sub(old, lambda m: m.expand(new), text, count=1, flags=re.M)


def add(more):
    return lambda text: text + more


def drop(pattern):
    return lambda text: re.sub(pattern, "", text, flags=re.M)


def gone(_):
    return None


def seen_anew(label, message, path, make):
    change(label, message, path, make, anew=True)


# a. Another meaning for a word of the kit.

for label, line, message in (
    ("a word of ours as ≡", "ghost use Rattle.refusals.specs.Number.{number_of as ◌≡◌};", "gives ◌≡◌ another meaning"),
    ("≤ as ≡", "ghost use Rattle.std.specs.Prelude.{◌≤◌ as ◌≡◌};", "renames the kit's ◌≤◌ to ◌≡◌"),
    ("≡ from another module of the kit", "ghost use Rattle.std.specs.Other.{◌≡◌};", "gives ◌≡◌ another meaning"),
    ("a test of std from another module", EQUAL + "\nghost use Rattle.std.specs.Other.{nat_lt};", "gives nat_lt another meaning"),
    ("≡ in a list of several lines", "    ghost use Rattle.refusals.specs.Number.{\n        number_of\n        as ◌≡◌\n    };", "another meaning|another form"),
    ("≡ as a part of an operator", EQUAL + "\nghost use Rattle.refusals.specs.Number.{number_of as ◌≡◌since◌};", "gives ◌≡◌since◌ another meaning"),
    ("length of ours", EQUAL + "\nghost use Rattle.lists.specs.Index.{at as length};", "gives length another meaning"),
    ("a module under another name", EQUAL + "\nghost use Rattle.refusals.specs.Number as Path;", "of another form"),
    ("a word from proofs", EQUAL + "\nghost use Rattle.judge.proofs.Laws.{law};", "neither the kit's nor in specs/"),
    ("a word of a library that is neither", EQUAL + "\nghost use Rattle.other.specs.Number.{law};", "neither the kit's nor in specs/"),
    ("a word in « »", EQUAL + "\nghost use Rattle.lists.specs.Index.{at as «length»};", "can hide code"),
    ("a list that looks like a comment", EQUAL + "\nghost use Rattle.lists.specs.Index.{at as\n// , at as ◌≡◌\n};", "no plain name|another meaning"),
    ("a comment behind code", EQUAL + " // ghost use ..", "can hide code"),
    ("a number of another size", EQUAL + "\npub struct u32(u64);", "has a module or type u32"),
    ("a field that reads like what a reference refers to", EQUAL + "\npub struct Pair {\n    pub new: u32,\n}", "has a field new"),
    ("a comment of several lines", "/*\n" + EQUAL + "\n*/", "can hide code"),
):
    seen_anew(f"a: {label}", message, CALLS, put(re.escape(EQUAL), line.replace("\\", r"\\")))
seen_anew("a: ≡ below the functions", "gives ◌≡◌ another meaning", CALLS, add("  ghost  use Rattle.refusals.specs.Number.{number_of as ◌≡◌};\n"))
for label, binder in (("a product", "(◌≡◌ : ℕ → ℕ → Type 0) → "), ("a function", "λ ◌≡◌. "), ("a let", "let ◌≡◌ = differ in ")):
    seen_anew(f"a: ≡ bound by {label} in a contract", "binds ◌≡◌", CALLS, put(r"^(    ensures \w+) \{ ", rf"\1 {{ {binder}"))
for word in ("length", "result"):
    seen_anew(f"a: a parameter hides {word}", f"binds {word}", "crates/badge/src/messages.rt", put(r"\bkey: &", f"{word}: &"))
for label, more, message in (
    ("≡ declared in specs/", "\npub ◌≡◌ : ℕ → ℕ → Type 0\n◌≡◌ x y = Unit\n", "declares ◌≡◌"),
    ("length declared in specs/", "\nabbrev pub length {ℓ} : {A : Type ℓ} → List A → ℕ\nlength xs = 0\n", "declares length"),
    ("a test of std declared in specs/", "\npub nat_lt : ℕ → ℕ → Bool\nnat_lt x y = true\n", "declares nat_lt"),
    ("⊥ declared in specs/", "\n⊥\n  : Type 0\n⊥ = Unit\n", "declares ⊥"),
    ("true as a constructor", "\ndata Answer : Type 0 where\n  false true : Answer\n", "declares true"),
    ("length declared in a section", "\nmodule _ (n : ℕ) where\n  abbrev pub length : ℕ\n  length = n\n", "declares length"),
    ("≡ as a parameter of a section", "\nmodule _ (◌≡◌ : ℕ → ℕ → Type 0) where\n  same : Type 0\n  same = 0 ≡ 1\n", "declares ◌≡◌"),
    ("≡ bound on the left", "\nsame ◌≡◌ = 0 ≡ 1\n", "declares ◌≡◌"),
    ("another precedence", "\ninfix 90 ◌≡◌\n", "declares ◌≡◌"),
    ("a module that hides the kit's", "\nmod lib\n", "has a module or type lib"),
    ("a module's whole path", "\nother : ℕ\nother = Rattle.lists.specs.Index.at\n", "names a module outside its `use` lines"),
    ("a glob", "\nuse Kid.*\n", "of another form"),
    ("true of ours in specs/", "\nuse Rattle.lists.specs.Index.{at as true}\n", "gives true another meaning"),
    ("a word from proofs in specs/", "\nuse Rattle.lists.proofs.Laws.{law}\n", "takes words from Rattle.lists.proofs.Laws, which no pin follows"),
):
    seen_anew(f"a: {label}", message, WORDS, add(more))
change("a: a word of ours for another", f"uses {CALLS} has changed", CALLS, put(r"\.\{judge, ", ".{other as judge, "))
change("a: a definition changed", f"definitions {WORDS} has changed", WORDS, add("-- More.\n"))

# b and c. Contracts that say nothing, or ask something.

seen_anew("b: a function without `ensures`", "primitives::quiet has no `ensures`", "crates/primitives/src/lib.rt", add("\npub fn quiet(x: u32) -> u32 { x }\n"))
seen_anew("b: a C function without `ensures`", "badge_c::badge_judge has no `ensures`", CALLS, drop(r"^    ensures .*\n"))
JUDGED = r"^(pub (?:extern \"C\" )?fn (?:badge_)?judge\([^{]*?)    ensures"
for label, clause in (("`requires`", "requires { key.now ≡ run.now }"), ("a starred `requires`", "requires* { ⌜ key.now ≡ run.now ⌝ }"),
                      ("a `requires` with a name, behind an `ensures` with one", "ensures right { result ≡ result }\n    requires read { key.now ≡ run.now }")):
    seen_anew(f"c: a C function with {label}", "badge_c::badge_judge is an entry point", CALLS, put(JUDGED, rf"\1    {clause}\n    ensures"))
for path, name in (("crates/judge/src/run.rt", "judge::run::judge"), ("crates/badge/src/lib.rt", "badge::badge_judge")):
    seen_anew(f"c: an entry point with `requires`: {name}", f"{name} is an entry point", path, put(JUDGED, r"\1    requires { key.now ≡ run.now }\n    ensures"))
seen_anew("c: a file that nothing proves", "that no `mod` line names", "crates/badge/src/lib.rt", drop(r"^pub mod messages;\n"))
change("c: another contract", "contract badge_c::badge_judge has changed", CALLS, put(r"result ≡ number_of \(judge ", "0 ≡ number_of (judge "))
seen_anew("c: a C function with a contract of its own", "badge_c::badge_judge promises something else", CALLS, put(r"result ≡ number_of \(judge ", "0 ≡ number_of (judge "))
seen_anew("c: a C function with a clause less", "badge_c::badge_message_7_lent promises something else", CALLS,
          lambda text: re.sub(r"(badge_message_7_lent.*?)    ensures out_after .*?\n", r"\1", text, flags=re.S))
seen_anew("c: a C function that calls another", "badge_c::badge_message_3 does not call", CALLS, put(r"badge::messages::badge_message_3\(", "badge::messages::badge_message_5("))
seen_anew("c: a second function of a call's name", "crate badge_c has other functions", "crates/badge_c/src/more.rt",
          lambda text: "pub fn badge_judge() -> u32\n    ensures { result ≡ 0 }\n{\n    0\n}\n")
seen_anew("c: a clause of several lines", "has a clause that is no `ensures` on a line of its own", "crates/badge/src/pairs.rt",
          put(r"^    ensures answer_after \{ ", "    ensures answer_after {\n        "))
change("c: another contract of a method", "contract sha::Sha::finish has changed", "crates/sha/src/lib.rt", put(r"result ≡ sha256 m \}", "result ≡ result }"))
seen_anew("c: a method with `requires` where none may be", "sha::Sha::new is an entry point", "crates/sha/src/lib.rt", put(r"^(    pub fn new\(\) -> Sha\n)", r"\1        requires { ⊥ }\n"))
MODULUS = "crates/numbers/src/modulus.rt"
change("c: a fact of a parameter's type", "type numbers::Modulus has changed", MODULUS, put(r"\{ Member q qs \}", "{ q ≡ 257 }"))
seen_anew("c: ≡ bound in a fact of a type", "binds ◌≡◌", MODULUS, put(r"\{ Member q qs \}", "{ (◌≡◌ : ℕ → ℕ → Type 0) → Member q qs }"))
seen_anew("c: a field that hides length from the facts of its type", "binds length", "crates/key/src/sizes.rt", put(r"pub entries: ", "pub length: "))

# d. The claims.

change("d: a premise less", r"claim .* has changed", PAGE, put(r"^(\|.*\|.*)P1 to P\d", r"\1P1"))
change("d: a limit less", r"claim .* is no longer there", PAGE, put(r"(is not claimed\n\n)- .*\n(?:  .*\n)*", r"\1"))
change("d: a heading that claims", "claims in order has changed", PAGE, put(r"^## Premises", "## An accepted file proves knowledge\n\n## Premises"))
change("d: two rows exchanged", "claims in order has changed", PAGE, put(r"^(\| For every two byte lists.*\n)(\|.*\n)", r"\2\1"))
seen_anew("d: a method that is not there", "names sha::Sha::finnish, which no listed crate has", PAGE, put("sha::Sha::finish", "sha::Sha::finnish"))
change("d: a page more that claims", "page docs/DESIGN-PASS.md has changed", "docs/DESIGN-PASS.md", add("\nAn accepted file proves knowledge.\n"))
seen_anew("d: a file that no auditor is told of", "does not tell an auditor of crates/protocol/specs/Demand3.antt", "README.md", put(r", `Demand3\.antt`", ""))
change("d: a sentence more", r"claim .* is not pinned yet", PAGE, add("\nAn accepted file proves knowledge.\n"))

# e and f. Vectors and must-fail edits.

change("e: no vectors", f"vectors {VECTORS} has changed", VECTORS, lambda text: "")
change("e: a vector less", f"vectors {VECTORS} has changed", VECTORS, put(LINE, ""))
change("e: a vector twice", f"vectors {VECTORS} has changed", VECTORS, put(f"({LINE}){LINE}", r"\1\1"))
seen_anew("e: no vector for a number", "judge.jsonl is answered with the number 15", VECTORS, drop(r'^.*"expect": 15\b.*\n'))
change("f: an edit less", EDITS, EDIT, gone)
change("f: another edit", EDITS, EDIT, put(r"^new: .*$", "new: x"))
change("f: an edit that no longer fits", "does not stand once", EDIT, put(r"^old: .*$", "old: x y z"), check=TIDY)
change("f: an edit that changes nothing", "changes nothing", EDIT, lambda text: re.sub(r"^old: (.*)\nnew: .*$", r"old: \1\nnew: \1", text, flags=re.M), check=TIDY)

# g. The gate.

change("g: a test less", "target runs has changed", "Makefile", put(r"^(runs:.*) \w+$", r"\1"))
change("g: a check less", "target checks has changed", "Makefile", put(r"^(checks:.*) claims\b", r"\1"))
change("g: a test that does nothing", "target definitions has changed", "Makefile", put(r"^(definitions:.*\n)\t.*", r"\1\t@true"))
change("g: other flags", r"tests has changed .*Makefile", "Makefile", put(r"^FLAGS_sanitized = .*$", "FLAGS_sanitized = -O1"))
change("g: another gate", r"tests has changed .*\.ci/run", ".ci/run", put(r"^run_make .*runs$", "true"))
seen_anew("g: another makefile", "make reads GNUmakefile", "GNUmakefile", lambda text: "tests:\n\t@true\n")
for file in ("tests/program.py", "tests/report.py", "crates/report/stdout", "tests/gate.py", "tools/definitions.py", "reference/vectors.py",
             "reference/compare.c", "tests/c/test_primitives.c", TIDY):
    change(f"g: {file} emptied", f"tests has changed .*{re.escape(file)}", file, lambda text: "")
for file in ("include/string.h", "tools/struct/__init__.py", "reference/json/__init__.py"):
    change(f"g: {file} beside the tests", f"tests has changed .*{re.escape(file)}", file, lambda text: "#")

# h. The headers.

for label, old, new in (("another name", r"\brun\b(?=, size_t)", "file"), ("another order", r"(const uint8_t \*key), (size_t key_length)", r"\2, \1"),
                        ("another type", r"^uint32_t (badge_judge\()", r"int32_t \1"), ("a list that may change", r"const (uint8_t \*run,)", r"\1"),
                        ("a call less", r"^uint32_t badge_judge\(.*\n", "")):
    seen_anew(f"h: {label}", f"{HEADER} does not declare what C calls", HEADER, put(old, new))
seen_anew("h: a call more", f"{HEADER} declares what crate badge_c has not", HEADER, put(r"^(uint32_t badge_)judge(\()", r"\1open\2void);\n\1judge\2"))
seen_anew("h: another name for tests", "primitives.h does not declare", "tests/c/primitives.h", put(r"uint64_t first", "uint64_t start"))
change("h: the manual says more", f"header {HEADER} has changed", HEADER, put("0: accepted", "0: accepted, and the badge knows s"))

# i. Code that these checks read otherwise than Rattle does, and what stands in for a file of the gate.

PAIRS, ZERO = "crates/protocol/src/pairs.rt", "fn zero() -> u32\n    ensures { %s } { 0 } /*\n}\n{\n}\n// */\n"
seen_anew("i: a theorem in a comment that a text in quotes hides", "can hide code", PAIRS,
          lambda text: text.replace("pub fn demand_3()", 'const NOTE: [u8; 4] = *b"\n// "; /*\npub fn demand_3()') + "// */\n")
seen_anew("i: a comment of antt's in a clause", "can hide code", CALLS, add(ZERO % "result ≡ 0 {-\n// -}"))
seen_anew("i: a clause over what looks like a comment", "a line of comment in a clause", CALLS, add(ZERO % "λ\n// . // ≡ 0"))
seen_anew("i: code in a contract", "can hide code", CALLS, put(r"\{ result ≡", "{ ⟦zero()⟧ ≡"))
seen_anew("i: a `ghost` in another form", "has a `ghost` that is no `use`", CALLS, put(r"^    ensures", "    ghost n: { ℕ }\n    ensures"))
seen_anew("i: an export in another form", "exports a function in another form", CALLS, put(r'^pub extern "C" fn', 'pub extern "C"\nfn'))
seen_anew("i: an export by another attribute", "exports a function in another form", CALLS, put(r"^#\[unsafe\(no_mangle\)\]", "#[no_mangle]"))
seen_anew("i: eqb declared in a section", "declares eqb", WORDS, put(r"^(module _ .*\n)", r"\1  eqb : ℕ → ℕ → Bool\n  eqb x y = true\n\n"))
seen_anew("i: length bound by a let", "declares length", WORDS, put(r"^judge key x = ", "judge key x = let length = x in "))
seen_anew("i: a module below a file of definitions", "has a module below it", WORDS, put(r"^(use .*\n)(?!use)", r"\1mod Run\n"))
SHEET = "crates/sheet/src/lib.rt"
change("i: a theorem for fewer runs", "contract sheet::lines_counted has changed", SHEET, put("≤ 99 → Counted", "≤ 9 → Counted"))
seen_anew("i: a theorem less", "names sheet::lines_counted, which no listed crate has", SHEET, drop(r"^pub fn lines_counted.*\n.*\n\{\}\n"))
seen_anew("i: a theorem with `requires`", "demand_3 is an entry point", PAIRS, put(r"^pub fn demand_3\(\)$", r"pub fn demand_3()\n    requires { ⊥ }"))
seen_anew("i: a type on a line with another item", "has a module or type u32", CALLS, add("const NONE: u8 = 0; pub struct u32(u64);\n"))
seen_anew("i: a macro for a call", "neither a number nor a call", HEADER, add("#define badge_judge(a, b, c, d) 0\n"))
seen_anew("i: a file that hides differences", "make reads .gitattributes", ".gitattributes", lambda text: "tools/pinned.txt -diff\n")
seen_anew("i: another page", "another page", "docs/GUARANTEES.md", lambda text: "Secrecy of s is proved.\n")
for program in ("crates/verdict/src/main.rt", "crates/report/src/main.rt"):
    change("i: a program that does more", f"program {program} has changed", program, put(r"\bmain\((.*)\) \{", r"main(\1) {\n"))
change("i: README claims more", "page README.md has changed", "README.md", add("\nAn accepted file proves knowledge.\n"))
change("i: a module without source", "tests has changed .*json.pyc", "reference/json.pyc", lambda text: "#")
change("i: a header that gcc takes first", "tests has changed .*badge.h.gch", "include/badge.h.gch", lambda text: "#")
change("i: a pin that stands twice", "is not what `make pin` writes", "tools/pinned.txt", add("\n== contract protocol::pairs::demand_3\n"))
change("i: an edit of a proof", "edits a proof", EDIT, put(r"^file: .*$", "file: proofs/Lib.antt"), check=TIDY)

# What `make tidy` sees besides.

change("tidy: a name that nothing uses", "takes ◌⊎◌ and does not use it", CALLS, add("ghost use Rattle.std.specs.Prelude.{◌⊎◌};\n"), check=TIDY)


def checked(folder, check, *words):
    run = subprocess.run([sys.executable, "-I", "-B", "-S", check, *words], cwd=folder, capture_output=True, text=True)
    return run.returncode, run.stdout + run.stderr


def copy(folder):
    """The repository's own files, without what was built."""
    built = shutil.ignore_patterns(".git", "target", "dist", "build", "out", "__pycache__", "*.log")
    shutil.copytree(ROOT, folder, ignore=built, dirs_exist_ok=True)


def failure(folder, label, message, path, make, check, anew):
    """What is wrong with the checks at a change, or nothing; the copy is then as it was."""
    file = folder / path
    before = {x: x.read_bytes() if x.exists() else None for x in (file, folder / "README.md", folder / "tools/pinned.txt")}
    old = before[file].decode() if before[file] is not None else ""
    new = make(old)
    if new == old:
        return f"{label}: the change does not apply to {path}"
    if new is None:
        file.unlink()
    else:
        file.parent.mkdir(exist_ok=True)
        file.write_text(new)
    status, said = checked(folder, check, *["--pin"] * anew)
    for x, content in before.items():
        if content is None:
            x.unlink()
            if not any(x.parent.iterdir()):
                x.parent.rmdir()
        else:
            x.write_bytes(content)
    if status == 0:
        return f"{label}: not seen"
    return "" if re.search(message, said) else f"{label}: no word of {message!r} in:\n{said}"


def try_changes(share):
    """The failures of some of the changes, in a copy of their own; and that the copy is green before and after them."""
    with tempfile.TemporaryDirectory() as name:
        folder = pathlib.Path(name)
        copy(folder)
        green = [f"the copy is red before any change:\n{said}" for status, said in (checked(folder, x) for x in (CLAIMS, TIDY)) if status]
        failures = [] if green else [failure(folder, *x) for x in share]
        green = green or [f"the copy is red after the changes:\n{said}" for status, said in [checked(folder, CLAIMS)] if status]
    return green + failures


SHELLS = ("sh", "bash")
# The gate's script, with stand-ins for rt, rattle and make: what rt ci says in place of what it says where all is well, its last line and
# status, and what else fails; then the gate's status and its last line.
KEPT = "is kept: an earlier run on this machine proved the same files over the same libraries"
SAID = f"""rt: chose
== b
fn b::t: proved
rt: b proved
rt: k {KEPT}
rt: p {KEPT}
rt: ok; handles allowed: none; must-fail edits: 3 refused; done in this run: 1 of the 3 proofs
"""
PINNED = "".join(f"\n== contract {x}::t\n" for x in "bkp")
WELL = "3 passed, 0 failed"
RUNS = (
    ("all is well", "", "", WELL, 0, "", 0, WELL),
    ("a proof fails", "", "", "2 passed, 1 failed", 1, "", 1, "2 passed, 1 failed"),
    ("rt says that one failed and ends well", "", "", "2 passed, 1 failed", 0, "", 1, "2 passed, 1 failed"),
    ("rt ends badly and says nothing of it", "", "", WELL, 2, "", 2, "the gate stops: rt ci ended with status 2"),
    ("rt proves nothing", "", "", "0 passed, 0 failed", 0, "", 1, "the gate stops: rt ci ended with status 0"),
    ("rt says nothing", SAID, "", "", 0, "", 1, "the gate stops: rt ci ended with status 0"),
    ("a run of some crates alone", "", "", WELL + " (b and the crates below alone: not the gate)", 0, "", 1, "the gate stops: rt ci ended with status 0"),
    ("a check fails", "", "", WELL, 0, "tools/check_claims.py", 1, "the gate stops: tools/check_claims.py failed"),
    ("the checks' own trial fails", "", "", WELL, 0, "tests/gate.py", 1, "the gate stops: tests/gate.py failed"),
    ("an edit is bad", "3 refused", "2 refused, 1 bad", WELL, 0, "", 1, "the gate stops: tools/check_proved.py failed"),
    ("an edit is bad, others by a limit", "3 refused", "2 refused, 1 of them only by a limit, 1 bad", WELL, 0, "", 1, "the gate stops: tools/check_proved.py failed"),
    ("rt does not say that all is well", "rt: ok;", "rt: so;", WELL, 0, "", 1, "the gate stops: tools/check_proved.py failed"),
    ("a theorem is not proved", "fn b::t: proved", "fn b::u: proved", WELL, 0, "", 1, "the gate stops: tools/check_proved.py failed"),
    ("another crate says that it is proved", "fn b::t: proved\nrt: b proved\n", "rt: b proved\n== c\nfn b::t: proved\n", WELL, 0, "", 1, "the gate stops: tools/check_proved.py failed"),
    ("a test says that it is proved", "== b\nfn b::t: proved\nrt: b proved\n", "== b\nrt: b proved\ntests: 1\n== b\nfn b::t: proved\nrt: b proved\n", WELL, 0, "", 1, "the gate stops: tools/check_proved.py failed"),
    ("a theorem of a kept library is not there", "fn b::t: proved\nrt: b proved\n", "fn b::t: proved\n", WELL, 0, "crates/k/out/rlib/k.rlib/toolchain/mir.json", 1, "the gate stops: tools/check_proved.py failed"),
    ("a kept library is older than the code, and a check does not prove its theorem", "", "", WELL, 0, "crates/k/out/rlib/stamp", 1, "the gate stops: tools/check_proved.py failed"),
    ("a theorem of a kept program is not proved", "", "", WELL, 0, "rattle", 1, "the gate stops: tools/check_proved.py failed"),
    ("a crate is neither proved nor kept", f"rt: k {KEPT}\n", "", WELL, 0, "", 1, "the gate stops: tools/check_proved.py failed"),
    ("a test fails", "", "", WELL, 0, "runs", 1, "the gate stops: make --jobs=2 --output-sync runs failed"),
    *((f"{file} stands in for another file", "", "", WELL, 0, file, 1, f"the gate stops: ./{file} stands in for a file of the gate")
      for file in ("reference/json.pyc", "crates/b/src/out/json.pyc")),
)
# What may lie in the folder: what rt built, and what earlier runs compiled, which the gate's checks do not read.
BUILT = ("crates/b/out/b.so", "tools/__pycache__/repo.cpython-311.pyc", "reference/build/libreference.so", "target/x.so")


def stand_in(file, text):
    file.write_text("#!/bin/sh\n" + text)
    file.chmod(0o755)


def gate_folder(folder, failing):
    """A repository of three crates, of which rt keeps a library and a program."""
    library = "crates/k/out/rlib/k.rlib/toolchain/mir.json"
    texts = {**{x: "#" for x in BUILT}, "crates.txt": "b:\nk: b\np: b k\n", "tools/pinned.txt": PINNED, "crates/p/src/main.rt": "", "crates/k/src/lib.rt": "",
             library: '[["k::%s", {}]]' % ("u" if failing == library else "t")}
    for name, text in {**texts, **({failing: "#"} if failing.endswith((".pyc", "stamp")) else {})}.items():
        (folder / name).parent.mkdir(parents=True, exist_ok=True)
        (folder / name).write_text(text)
    os.utime(folder / library, (0, 0))
    for name in (".ci/run", "tools/check_proved.py"):
        (folder / name).parent.mkdir(exist_ok=True)
        shutil.copy(ROOT / name, folder / name)


def try_gate():
    failures = []
    for shell, (label, old, new, last, status, failing, ends, end) in itertools.product(SHELLS, RUNS):
        with tempfile.TemporaryDirectory() as name:
            folder = pathlib.Path(name)
            gate_folder(folder, failing)
            said = SAID.replace(old, new) if old else SAID
            (folder / "said").write_text(said)
            (folder / "bin").mkdir()
            stand_in(folder / "bin/python3", f"case \" $* \" in *' tools/check_proved.py '*) exec {sys.executable} \"$@\";; esac\n"
                     f"for last; do :; done; [ \"$last\" != \"{failing}\" ]\n")
            stand_in(folder / "bin/rt", f"[ \"$*\" = ci ] || exit 9\n{' && '.join(f'[ -e {x} ]' for x in BUILT)} || echo 'something is gone'\n"
                     f"cat said; echo told >&2; [ -z '{last}' ] || echo '{last}'; exit {status}\n")
            stand_in(folder / "bin/rattle", f"[ \"{failing}\" != rattle ] && echo 'fn p::t: proved'\n")
            stand_in(folder / "bin/make", f"for last; do :; done; [ ! -e reference/build ] && echo \"made $last\"; [ \"$last\" != \"{failing}\" ]\n")
            run = subprocess.run([shell, ".ci/run"], cwd=folder, env={**os.environ, "CI": "true", "PATH": f"{folder}/bin:{os.environ['PATH']}"},
                                 stdin=subprocess.DEVNULL, stdout=subprocess.PIPE, stderr=subprocess.STDOUT, text=True)
            lines = run.stdout.splitlines()
            well = [*said.splitlines(), "told", "== p, which was kept: what is pinned of it", "fn p::t: proved",
                    "proved: 3 pinned contracts, 2 crates kept from an earlier run", "made runs", end]
            if run.returncode != ends or lines[-1:] != [end] or (ends == 0 and lines != well):
                failures.append(f"the gate by {shell}, where {label}: status {run.returncode} and\n{run.stdout}")
    return failures


def main():
    side_by_side = min(os.cpu_count() or 1, 8)
    with concurrent.futures.ThreadPoolExecutor(side_by_side) as pool:
        failures = [x for share in pool.map(try_changes, (changes[k::side_by_side] for k in range(side_by_side))) for x in share if x]
    failures += try_gate()
    for x in failures:
        print(x)
    print(f"gate: {len(changes)} changes seen by the checks, {len(SHELLS) * len(RUNS)} runs of the gate's script; {len(failures)} wrong")
    sys.exit(1 if failures else 0)


main()
