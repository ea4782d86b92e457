"""Where the words of contracts and definitions come from: a word of the kit means one thing in every file of src/ and specs/.

Every `use` line is of a form that these checks read. A word of the kit comes from its home there, under its own name; no other module
brings a word so spelled, no file of specs/ declares one, and no contract binds one that its file takes."""
import re

from repo import CLAUSE, CODE_USE, GHOST_FIELD, GHOST_USE, LAWS, OURS, SPEC_USE, TOKEN, closing, code, expect, files, functions, listed, name_of, uses

KIT = ("Prim", "mathlib", "native", "lib", "mir", "borrow", "denote", "Rattle", "std", "core")
STD = "Rattle.std"
# Where each word of std that a reader takes for granted comes from: what stands first in a row passes it on from what follows.
PRELUDE, COMMON = "Rattle.std.specs.Prelude", "Rattle.std.proofs.Common"
HOMES = {word: home.split() for home, row in {
    f"{PRELUDE} {COMMON} Rattle.std.proofs.Math.Path mathlib.Core.Path": "◌≡◌",
    f"{PRELUDE} {COMMON} Prim.Native.Nat": "ℕ zero suc pred ◌+◌ ◌*◌ ◌-◌ ◌/◌ ◌%◌ ◌^◌ ◌<◌ ◌≤◌ min max",
    f"{PRELUDE} {COMMON} Rattle.std.proofs.Math.Bool mathlib.Core.Bool": "Bool true false cond not ◌&&◌ ◌||◌",
    f"{PRELUDE} {COMMON} Rattle.std.proofs.Math.Logic mathlib.Core.Logic": "◌⊎◌ ◌≢◌ ◌↔◌",
    f"{COMMON} Rattle.std.proofs.Math.Logic mathlib.Core.Logic": "inl inr",
    f"{PRELUDE} {COMMON} mathlib.Core.List": "List [] ◌∷◌ ◌++◌",
    f"{PRELUDE} {COMMON} Rattle.std.proofs.Math.ListN lib.ListN": "length get_or take drop set replicate",
    f"{PRELUDE} {COMMON} Rattle.std.proofs.Math.Dec lib.Dec": "eqb ltb leb",
    f"{PRELUDE} {COMMON} Rattle.std.specs.Int.Bits lib.Bits": "bit_and bit_or bit_xor",
    f"{PRELUDE} {COMMON} Rattle.std.proofs.Math.IntN lib.IntN": "ℤ pos negsuc neg_ℤ nat_abs ◌+ℤ◌ ◌-ℤ◌ ◌*ℤ◌",
    f"{PRELUDE} {COMMON}": "nat_eq nat_lt nat_le ◌==◌ ◌≤ℤ◌ ◌<ℤ◌ slice_get slice_index slice_index_or slice_set slice_range if◌then◌else◌ "
                           "⊤ Option Some None Result Ok Err IfSome IfNone IfOk IfErr OnSome OnOk OnErr IsSome IsNone IsOk IsErr IsTrue IsFalse "
                           "All Any Contains",
}.items() for word in row.split()}
TYPES = "u8 u16 u32 u64 usize i8 i16 i32 i64 isize bool f32 f64".split()
# Comments that are not lines of their own, names in « », raw strings, characters that are not shown.
UNSEEN = r"[^\S\n ]|[\u00ad\u200b-\u200f\u2028-\u202e\u2060-\u206f\ufeff]"
HIDDEN = {".rt": rf"⟦|//|/\*|«|\bb?r#*\"|\bmod\s+\w+\s*\{{|{UNSEEN}", ".antt": rf"(?<!\S)--|\{{-|«|\"|{UNSEEN}"}
# In scope with no `use` line.
GIVEN = ("⊥ ¬◌ absurd Dec yes no Unit tt Id Path IsProp IsSet ∥◌∥₁ ∣◌∣₁ ◌×◌ ◌→◌ Type result ⌜◌⌝ ◌∗◌ ◌-∗◌ ∀ₛ ∃ₛ ◌∧ₛ◌ ◌∨ₛ◌ ◌→ₛ◌ ⊤ₛ ⊥ₛ 𝓤 𝓛 "
         "◌>>=◌ ◌>>◌").split()
# What patterns are made of.
CONSTRUCTORS = set("zero suc true false [] ∷ inl inr pos yes no tt Some None Ok Err →".split())

SIGNATURE = r"(?=\S)([^(){}.;,:=\n]+?)\s*(?:\{[^}]*\}\s*)?:\s"
EXPORTED = ("^" + SIGNATURE, r"^[ \t]+(?:(?:unfoldable|abbrev)\s+)*pub\s+" + SIGNATURE)
NAMED = (r"\b(?:data|record|ruleset)\s+([^\s(){}:=]+)", r"\bas\s+([^\s(){},]+)", r"^[ \t]*infix[lr]?\s+\d+\s+(.*)$")
RECORD, DATA = (re.compile(rf"^([ \t]*)(?:pub\s+)?{word}\b.*\n(?:\1[ \t]+.*\n|[ \t]*\n)*", re.M) for word in ("record", "data"))
BOUND = (
    r"^[ \t]+" + SIGNATURE,
    r"λ([^.]*)\.",
    r"[({]([^(){}:=]+?)\s:\s",
    r"\blet\s+([^:=]+?)\s+[:=]\s",
    r"(\([^()]*\)|[^\s(){},]+)\s+←",
    r"\busing\s*\(([^()]*)\)",
)
PATTERNS = (
    r"[\[|]([^↦|\n]*?)↦",
    r"^[ \t]*(?=\S)([^=:{\n]+?)\s=\s",
)


def parts(*words):
    return {part for word in words for part in word.split("◌") if part}


TAKEN = parts(*HOMES, *GIVEN)


def names(patterns, text):
    """The names that the patterns find in a text; the types of binders are left out."""
    found = (re.sub(r"\s:\s[^()]*", " ", m.group(1)) for p in patterns for m in re.finditer(p, text, re.M))
    return {name for part in found for name in re.findall(TOKEN, part)}


def is_ours(path, form=OURS):
    m = form.fullmatch(path)
    return m and m.group(1) in listed()


def gives_laws(path, file):
    """A law that a file of specs/ proves may cite laws of another crate's proofs/; a pinned file takes none (tools/pins.py)."""
    return file.suffix == ".antt" and is_ours(path, LAWS)


def is_kit(path):
    library = path.split(".")[0]
    return path.startswith(STD + ".") if library == "Rattle" and "." in path else library in KIT


def is_free(name):
    """A name that a file may give to what it takes: no word of the kit, and no library's."""
    return not parts(name) & TAKEN and name not in KIT


def check_readable(file, text):
    """Every `use` is of a form that these checks read, and nothing hides from them."""
    name = name_of(file)
    forms = [GHOST_USE, CODE_USE] if file.suffix == ".rt" else [SPEC_USE]
    known = sum(len(form.findall(text)) for form in forms)
    expect(len(re.findall(r"(?<![\w·-])use(?![\w·-])", text)) == known, f"{name} has a `use` of another form than M.{{a, b as c}}")
    expect(text.count("Rattle.") == sum("Rattle." in use.path for use in uses(file)), f"{name} names a module outside its `use` lines")
    hidden = re.search(HIDDEN[file.suffix], text)
    expect(not hidden, f"{name} has what can hide code from these checks: {hidden and ascii(hidden.group(0))}")
    for m in re.finditer(r"\b(?:mod|struct|enum|type|use\s[^;]*\bas)\s+([^\s;({]+)", text, re.M):
        expect(not is_kit(m.group(1)) and m.group(1) not in TYPES, f"{name} has a module or type {m.group(1)}, which hides the kit's")


QUOTED = re.compile(r"b'(?:\\.|[^'\\\n])'|b?\"(?:\\.|[^\"\\\n])*\"")


def check_comments(file, text):
    """A line of code that starts with // is a comment: no text in quotes and no clause, whose text is antt's, goes on over it."""
    name, whole = name_of(file), file.read_text()
    odd = re.search(r'"|--|\{-', QUOTED.sub("", text))
    expect(not odd, f"{name} has what can hide code from these checks: {odd and odd.group(0)}")
    field = re.search(r"\bstruct\b[^{;]*\{[^}]*\b(now|old|new|entry|exit)\s*:", text)
    expect(not field, f"{name} has a field {field and field.group(1)}, which a contract reads like what a reference refers to")
    known = len(GHOST_USE.findall(text)) + len(GHOST_FIELD.findall(text))
    expect(len(re.findall(r"\bghost\b", text)) == known, f"{name} has a `ghost` that is no `use` and no fact of a type")
    for m in (*re.finditer(rf"\b{CLAUSE}\{{", text), *GHOST_FIELD.finditer(text)):
        end = closing(text, m.end() - 1)
        expect(whole[m.start():end] == text[m.start():end], f"{name} has a line of comment in a clause, which antt does not read as one")
    marks = len(re.findall(r"\bno_mangle\b|\bextern\b", text))
    expect(marks == 2 * len(re.findall(r'^#\[unsafe\(no_mangle\)\]\npub extern "C" fn ', text, re.M)), f"{name} exports a function in another form")


def check_uses(file):
    name = name_of(file)
    for use in uses(file):
        kit = is_kit(use.path)
        expect(kit or is_ours(use.path) or gives_laws(use.path, file), f"{name} takes words from {use.path}, which is neither the kit's nor in specs/ of a listed crate")
        expect(not (kit and use.alias), f"{name} renames the kit's {use.path} to {use.alias}")
        expect(is_free(use.alias), f"{name} gives {use.alias} another meaning: {use.path}")
        for word, here in use.names:
            expect(not re.search(r"[.\s]|//", word + here), f"{name} takes {word} of {use.path}, which is no plain name")
            expect(word == here or not kit, f"{name} renames the kit's {word} to {here}")
            at_home = use.path in HOMES.get(word, ()) and word == here
            expect(at_home or is_free(here), f"{name} gives {here} another meaning: {word} of {use.path}")


def bound(text):
    return names(BOUND, text) | names(PATTERNS, text) - CONSTRUCTORS


def check_definitions(file, text):
    """No file of definitions gives a word of the kit to something of its own; a record's field and a local name may be so spelled."""
    constructors = "".join(m.group(0) for m in DATA.finditer(text))
    declared = names(NAMED, text) | names(EXPORTED, RECORD.sub("", text)) | names(BOUND[:1], constructors)
    for word in sorted(declared | bound(text)):
        expect(not parts(word) & TAKEN, f"{name_of(file)} declares {word}, which is a word of the kit")


def check_bound(name, file, found):
    here = parts(*GIVEN, *(word for use in uses(file) if is_kit(use.path) for word, _ in use.names))
    for word in sorted(found):
        expect(not parts(word) & (TAKEN if "◌" in word else here), f"{name} binds {word}, which hides the kit's")


def check_contract(name, function):
    """No contract binds a symbol of the kit, or a word that its file takes or that is there without."""
    parameters = {p[0] for p in function.parameters()}
    head = re.search(r"\bfn\b[^()]*", function.text).end()
    check_bound(name, function.file, bound(function.text[head:]) | parameters)


def check_facts(file, text):
    """No fact of a type and no member of a trait binds one either; the fields of a type are in scope in its facts."""
    for m in GHOST_FIELD.finditer(text):
        inside = text[m.end():closing(text, m.end() - 1)]
        block = text[text.rfind("\n}", 0, m.start()) + 1:m.start()]
        fields = set(re.findall(r"^[ \t]+(?:pub )?(?:ghost )?(\w+)(?=:| =)", block + m.group(0), re.M))
        check_bound(f"a fact in {name_of(file)}", file, bound(inside) | fields)


def check_words():
    for file in [*files("src", ".rt"), *files("specs", ".antt")]:
        check_readable(file, code(file))
        if file.suffix == ".rt":
            check_comments(file, code(file))
            check_facts(file, code(file))
        elif file.name != "Lib.antt":
            expect(not re.search(r"^\s*(?:pub\s+)?mod\b", code(file), re.M), f"{name_of(file)} has a module below it, which no pin follows")
        check_uses(file)
    for file in files("specs", ".antt"):
        check_definitions(file, SPEC_USE.sub("", code(file)))
    for name, function in functions().items():
        check_contract(name, function)
