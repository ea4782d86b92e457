#!/usr/bin/env python3
"""Wrong versions of the definitions and of the second implementation, and the vector that tells each from the right one.

    wrong_versions.py LIBRARY       LIBRARY: the second implementation as a shared object, for the definitions

Each is an edit of a copy. `tools/definitions.py` and `reference/vectors.py` must see a difference on the vector; that the right
versions see none there is `make definitions` and `make reference`."""
import concurrent.futures
import pathlib
import shutil
import subprocess
import sys
import tempfile

ROOT = pathlib.Path(__file__).resolve().parent.parent
LIBRARY = pathlib.Path(sys.argv[1]).resolve()
JUDGE, TRANSCRIPT, PAIR, PROVER = ("protocol/specs/%s.antt" % x for x in ("Judge", "Transcript", "Pair", "Prover"))
CALL, SHEET = "badge/specs/PairCall.antt", "sheet/specs/Sheet.antt"


def turned(first, between, second):
    """Two pieces of text that stand in the wrong order."""
    return first + between + second, second + between + first


def test(condition, number):
    return "    if (%s)\n        return %s;\n" % (condition, number)


KEPT = "cat K.M (λ e. pick (opened P.p2 e) [] (execution_checks e))"
GOOD_E, GOOD_HIDDEN = "not (good_e K P.p2) ⇒ 7", "not (good_hidden K P.p6) ⇒ 10"
RUN_E, RUN_HIDDEN = (test("!opened_is_right(key, run->part[1], key->tau)", "OPENED_WRONG"),
                     test("!hidden_is_right(key, run->part[5], key->kept)", "HIDDEN_WRONG"))
H_GAMMA, H_PI = "not (same P.p1 (H (hΓin K view))) ⇒ 17", "not (same hπ_at (H (hπin K view P.p2 κ))) ⇒ 18"
REF_GAMMA, REF_PI = (test("!hash_is(c->h[0], key->M, run->part[0])", "GAMMA_WRONG"),
                     test("!hash_is(c->Pi[0], key->kept, run->part[2] + part_3_length(key) - 32)", "PI_WRONG"))
SECOND = "not (is_accepted (first (run_checks K y))) ⇒ 21"
FRONTS = "not (same_front K (parts_of x) (parts_of y)) ⇒ 22"
REF_SECOND = test("judge_side(p, two, run2, run2_len, p->second_work, lent->at)", "SECOND_REFUSED")
REF_PARTS = ("    size_t parts = (size_t)(one->run.part[5] - one->run.part[0]);\n"
             + test("memcmp(one->run.part[0], two->run.part[0], parts) != 0", "PARTS_DIFFER"))
SEVEN = "checks7 L hidden = checks5 L ++ (not (good_hidden K hidden) ⇒ 10 ∷ [])"
REF_E = test("!opened_is_right(key, in->E.at, in->E.length)", "OPENED_WRONG")
REF_BINARY = test("!secret_is_binary(key, in->secret.at)", "SECRET_NOT_BINARY")
REF_SECRET = test("!secret_is_right(key, in->secret.at)", "SECRET_WRONG")
REF_HIDDEN = test("g->number == 7 && !hidden_is_right(key, in->hidden.at, in->hidden.length)", "HIDDEN_WRONG")
REF_LENT, REF_READ = (test("!lists_suffice(&key, lent)", "LENT_SHORT"),
                      "    refused = read_transcript(&run, &key, run_bytes, run_len);\n    if (refused)\n        return refused;\n")
LENT_11 = "not (lent_enough (key_of key) work entry) ⇒ 11"
REF_ANSWER = " || answer_len < ANSWER_WORDS)"


def late_hidden(count):
    """10 after so many of message 7's tests."""
    return SEVEN, "checks7 L hidden = take %d (checks5 L) ++ (not (good_hidden K hidden) ⇒ 10 ∷ []) ++ drop %d (checks5 L)" % (count, count)


def front(part):
    """This part of the two transcripts is not compared."""
    others = ["one->run.part[%d], two->run.part[%d], (size_t)(one->run.part[%d] - one->run.part[%d])" % (p, p, p + 1, p)
              for p in range(5) if p + 1 != part]
    return ((PAIR, ("same P.p%d R.p%d ∷ " % (part, part), "")),
            ("pair.c", (REF_PARTS, test(" || ".join("memcmp(%s) != 0" % x for x in others), "PARTS_DIFFER"))))


FIRST = "not (is_accepted (first (run_checks K x))) ⇒ 20"
SEVENTH = "not (eqb (length P.p7) (16 + sum K.M reply_size)) ⇒ 13"
RUN_SEVENTH = test("run->part_7_length != part_7_length(key, run->part[5])", "OPENING_LENGTH")
H_PSI = "not (same P.p5 (H (hψin K view P.p2 κ P.p4))) ⇒ 19"
REF_PSI = test("!hash_is(c->Psi[0], key->kept, run->part[4])", "PSI_WRONG")
OMEGA = "not (pick (hides_n e) true (same (Ω_at e) (H (Ωin K (kept_view e))))) ⇒ 16"
SUM = "not (eqb (sum K.N (o K (kept_view e) P.p4) % K.q) 0) ⇒ 15"
REF_OMEGA = "        if (!omega_is_right(x, run, j))\n            return OMEGA_WRONG;\n"
REF_SUM = "        if (!outputs_cancel(x))\n            return SUM_WRONG;\n"
E_7, BINARY_8 = "not (good_e K E) ⇒ 7", "not (binary K (λ k. get_or secret k 0)) ⇒ 8"
SOLVES_9 = "not (solves K (λ k. get_or secret k 0)) ⇒ 9"
CHECKS_7, LENT_7 = "checks7 K seeds secret E κ L hidden", "lent_checks K (message7 K seeds secret E κ L hidden) size from work entry"

ACCEPTED_RUNS, REFUSED_RUNS, ALL_RUNS = ("(decimal 2 (%s ns))" % x for x in ("accepted_in", "refused_in", "length"))
REF_COUNTS, REF_OPENED = "accepted, refused, accepted + refused);", "if (!read_file(name, run, &run_len))"

# What is wrong; the file and the line of the vector; the edit of the definitions, where they speak of it; that of the second
# implementation, where it is a short one.
VERSIONS = [
    ("all 16 before all 15", "judge", "15-first-before-16-last",
     (JUDGE, (KEPT, KEPT.replace("(execution_checks e)", "(take 1 (execution_checks e))") + " ++ "
              + KEPT.replace("(execution_checks e)", "(drop 1 (execution_checks e))"))),
     ("judge.c", ("    for (uint32_t j = 0; j < key->kept; j++) {\n        replay(x, run, j, g, w);\n",
                  "    for (uint32_t j = 0; j < key->kept; j++) {\n        replay(x, run, j, g, w);\n"
                  "        if (!omega_is_right(x, run, j))\n            return OMEGA_WRONG;\n    }\n"
                  "    for (uint32_t j = 0; j < key->kept; j++) {\n        replay(x, run, j, g, w);\n"))),
    ("10 before 7 in a transcript", "judge", "7-before-10", (JUDGE, turned(GOOD_E, "\n      ∷ ", GOOD_HIDDEN)),
     ("transcript.c", turned(RUN_E, "", RUN_HIDDEN))),
    ("7 before 12", "judge", "12-before-7",
     (JUDGE, ("run_checks K x = not (good_header K x) ⇒ 12 ∷ parts_checks K (parts_of x)",
              "run_checks K x = take 1 (parts_checks K (parts_of x)) ++ (not (good_header K x) ⇒ 12 ∷ []) ++ drop 1 (parts_checks K (parts_of x))")),
     None),
    ("13 before 10", "judge", "10-before-13", (JUDGE, turned(GOOD_HIDDEN, "\n      ∷ ", SEVENTH)),
     ("transcript.c", turned(RUN_HIDDEN, "", RUN_SEVENTH))),
    ("14 before 13", "judge", "13-before-14", (JUDGE, turned(SEVENTH, "\n      ∷ ", "not good_numbers ⇒ 14")), None),
    ("14 after the executions", "judge", "14-before-16-first",
     (JUDGE, ("form_checks ++ %s ++ hash_checks" % KEPT, "take 3 form_checks ++ %s ++ drop 3 form_checks ++ hash_checks" % KEPT)), None),
    ("15 before 16", "judge", "16-first-before-15-first", (JUDGE, turned(OMEGA, "\n      ∷ ", SUM)),
     ("judge.c", turned(REF_OMEGA, "", REF_SUM))),
    ("the hashes before the executions", "judge", "15-last-before-17",
     (JUDGE, ("form_checks ++ %s ++ hash_checks" % KEPT, "form_checks ++ hash_checks ++ %s" % KEPT)), None),
    ("19 before 18", "judge", "18-before-19", (JUDGE, turned(H_PI, "\n      ∷ ", H_PSI)), ("judge.c", turned(REF_PI, "", REF_PSI))),
    ("18 before 17", "judge", "17-before-18", (JUDGE, turned(H_GAMMA, "\n      ∷ ", H_PI)), ("judge.c", turned(REF_GAMMA, "", REF_PI))),
    ("a gap before part 7 accepted", "judge", "gap-before-part-7", (TRANSCRIPT, ("every 7 (λ i. eqb", "every 6 (λ i. eqb")),
     ("transcript.c", ("    for (int p = 0; p < 7; p++) {\n",
                       "    for (int p = 0; p < 7; p++) {\n        offset = p == 6 ? load_number(bytes + 48) : offset;\n"))),
    *(("part %d of a pair not compared" % part, "weak_pair" if part == 2 else "pair", "part-%d-alone" % part, *front(part))
      for part in range(1, 6)),
    ("21 before 20", "pair", "20-before-21", (PAIR, turned(FIRST, "\n    ∷ ", SECOND)), None),
    ("23 before 22", "pair", "22-before-23", (PAIR, turned(FRONTS, "\n    ∷ ", "same (parts_of x).p6 (parts_of y).p6 ⇒ 23")), None),
    ("the pair's 11 after 20", "pair", "11-of-uv_len-before-20", (PAIR, turned("not (enough K l) ⇒ 11", "\n    ∷ ", FIRST)), None),
    ("8 before 7", "lent", "3-7-before-8", (PROVER, turned(E_7, "\n        ∷ ", BINARY_8)), ("prover.c", turned(REF_E, "", REF_BINARY))),
    ("9 before 8", "lent", "5-8-before-9", (PROVER, turned(BINARY_8, "\n        ∷ ", SOLVES_9)),
     ("prover.c", turned(REF_BINARY, "", REF_SECRET))),
    ("message 7's 10 before 9", "lent", "7-9-before-10", (PROVER, late_hidden(3)), ("prover.c", turned(REF_SECRET, "", REF_HIDDEN))),
    ("message 7's 11 before 10", "lent", "7-10-before-11-work", (PROVER, turned(CHECKS_7, "\n        ++ ", LENT_7)), None),
    ("22 before 21", "pair", "21-before-22", (PAIR, turned(SECOND, "\n    ∷ ", FRONTS)),
     ("pair.c", (REF_SECOND + REF_PARTS, "    struct transcript other;\n" + test(
         "read_transcript(&other, &p->key, run2, run2_len)", "SECOND_REFUSED")
         + REF_PARTS.replace("two->run", "other") + REF_SECOND))),
    ("message 7's 10 before 7", "lent", "7-7-before-10", (PROVER, late_hidden(1)),
     ("prover.c", (REF_E + REF_BINARY + REF_SECRET + REF_HIDDEN, REF_HIDDEN + REF_E + REF_BINARY + REF_SECRET))),
    ("message 7's 10 before 8", "lent", "7-8-before-10", (PROVER, late_hidden(2)),
     ("prover.c", (REF_BINARY + REF_SECRET + REF_HIDDEN, REF_HIDDEN + REF_BINARY + REF_SECRET))),
    *(("the length of L after E, message %d" % call, "lent", "%d-6-L-before-7" % call,
       (PROVER, ("sized κ 16 ∷ sized L 16 ∷ [])) ⇒ 6 ∷ statement_checks",
                 "sized κ 16 ∷ [])) ⇒ 6 ∷ take 1 statement_checks ++ (not (sized L 16) ⇒ 6 ∷ []) ++ drop 1 statement_checks")),
       ("prover.c", (" || (g->number >= 5 && in->L.length != 16))\n        return INPUT_LENGTH;\n" + REF_E,
                     ")\n        return INPUT_LENGTH;\n" + REF_E + test("g->number >= 5 && in->L.length != 16", "INPUT_LENGTH"))))
      for call in (5, 7)),
    *(("11 of the lent judge after 14", "judge_lent", "11-before-%d" % number,
       (JUDGE, ("++ %s ∷ run_checks (key_of key) x)" % LENT_11,
                "++ take 5 (run_checks (key_of key) x) ++ (%s ∷ []) ++ drop 5 (run_checks (key_of key) x))" % LENT_11)),
       ("judge.c", turned(REF_LENT, "", REF_READ))) for number in (12, 14)),
    ("11 of the lent judge before the key", "judge_lent", "5-before-11",
     (JUDGE, ("first (key_checks (key_of key) key ++ %s ∷" % LENT_11, "first ((%s ∷ []) ++ key_checks (key_of key) key ++" % LENT_11)),
     ("judge.c", ("    if (refused)\n        return refused;\n" + REF_LENT,
                  "    if (refused == 5 && !lists_suffice(&key, lent))\n        return LENT_SHORT;\n"
                  "    if (refused)\n        return refused;\n" + REF_LENT))),
    ("an answer list of seven numbers accepted", "pair", "answer-7", (CALL, ("ltb n 8", "ltb n 7")),
     ("pair.c", (REF_ANSWER, " || answer_len < 7)"))),
    ("an answer list of eight numbers refused", "pair", "answer-8", (CALL, ("ltb n 8", "ltb n 9")),
     ("pair.c", (REF_ANSWER, " || answer_len < 9)"))),
    ("11 of the answer list before the key", "pair", "5-before-11-of-answer",
     (CALL, ("key_checks (key_of key) key ++ true ⇒ 11 ∷ []", "true ⇒ 11 ∷ []")),
     ("pair.c", ("    struct pair p;\n    uint32_t refused", "    struct pair p;\n    if (answer_len < ANSWER_WORDS)\n"
                 "        return -(int64_t)LENT_SHORT;\n    uint32_t refused"))),
    ("11 of the answer list after 20", "pair", "11-of-answer-before-20",
     (CALL, ("key ++ true ⇒ 11", "key ++ ltb 0 (number_of (first (run_checks (key_of key) x))) ⇒ 20 ∷ true ⇒ 11")),
     ("pair.c", (REF_ANSWER + "\n        return -(int64_t)LENT_SHORT;\n"
                 "    refused = pair_start(&p, run1, run1_len, run2, run2_len, lent);\n    if (refused)\n"
                 "        return -(int64_t)refused;\n",
                 ")\n        return -(int64_t)LENT_SHORT;\n"
                 "    refused = pair_start(&p, run1, run1_len, run2, run2_len, lent);\n    if (refused)\n"
                 "        return -(int64_t)refused;\n    if (answer_len < ANSWER_WORDS)\n        return -(int64_t)LENT_SHORT;\n"))),
    ("the total of the accepted", "report", "empty-between", (SHEET, (ALL_RUNS, ACCEPTED_RUNS)),
     ("report_files.c", (REF_COUNTS, "accepted, refused, accepted);"))),
    ("the accepted counted as refused", "report", "empty-between", (SHEET, (REFUSED_RUNS, ACCEPTED_RUNS)),
     ("report_files.c", (REF_COUNTS, "accepted, accepted, accepted + refused);"))),
    ("the last line's numbers swapped", "report", "one-empty-run",
     (SHEET, (ACCEPTED_RUNS + " " + REFUSED_RUNS, REFUSED_RUNS + " " + ACCEPTED_RUNS)),
     ("report_files.c", (REF_COUNTS, "refused, accepted, accepted + refused);"))),
    ("run 10 named run00", "report", "10-runs", (SHEET, ("(48 + i / 10)", "(48 + i / 11)")), None),
    ("a name of one digit", "report", "9-runs", (SHEET, ("(48 + i / 10) ∷ (48", "(48")), None),
    ("a count of two digits below 10", "report", "one-accepted", (SHEET, (ACCEPTED_RUNS, ACCEPTED_RUNS.replace("(", "(48 ∷ ", 1))),
     ("report_files.c", ("accepted %d refused", "accepted %02d refused"))),
    ("the last verdict for all", "report", "empty-between", (SHEET, ("run_line (suc j) (get_or ns j 0)", "run_line (suc j) (get_or ns (length ns - 1) 0)")),
     None),
    ("an empty run ends the sheet", "report", "empty-between", None, ("report_files.c", (REF_OPENED, REF_OPENED[:-1] + " || run_len == 0)"))),
    ("a hundredth run", "report", "101-runs", None, ("report_files.c", ("RUNS = 99", "RUNS = 100"))),
]


def edit(path, old, new):
    text = path.read_text()
    if text.count(old) != 1:
        sys.exit("%s has the text to be edited %d times: %r" % (path.name, text.count(old), old))
    path.write_text(text.replace(old, new))


def sees(command, name):
    """Whether the run ends with a difference on the vector, and nothing else."""
    done = subprocess.run([str(x) for x in command], capture_output=True, text=True)
    told = [line for line in done.stdout.splitlines() if "order-%s: expect is" % name in line or "order-%s: text is" % name in line]
    return done.returncode == 1 and len(told) == 1 and not done.stderr


def by_definitions(folder, vector, name, path, change):
    shutil.copytree(ROOT / "tools", folder / "tools")
    shutil.copytree(ROOT / "crates", folder / "crates", ignore=shutil.ignore_patterns("proofs", "must-fail", "out"))
    edit(folder / "crates" / path, *change)
    return sees([sys.executable, folder / "tools" / "definitions.py", LIBRARY, "--stop", vector], name)


def by_second(folder, vector, name, path, change):
    edit(folder / "reference" / path, *change)
    programs = {"weak_pair": ["build/refcli_weak2"], "report": ["build/refcli", "build/report_files"]}.get(vector.stem, ["build/refcli"])
    subprocess.run(["make", "-s", "-C", str(folder / "reference"), "OPT=-O0", *programs], check=True)
    return sees([sys.executable, folder / "reference" / "vectors.py", vector], name)


def run(version):
    what, kind, name, definition, second = version
    with tempfile.TemporaryDirectory() as scratch:
        folder = pathlib.Path(scratch)
        vector = folder / (kind + ".jsonl")
        lines = open(ROOT / "tests" / "vectors" / vector.name)
        vector.write_text("".join(x for x in lines if '"id": "order-%s"' % name in x))
        shutil.copytree(ROOT / "reference", folder / "reference", ignore=shutil.ignore_patterns("build", "__pycache__"))
        results = {"definitions": by_definitions(folder, vector, name, *definition)} if definition else {}
        if second:
            results["second implementation"] = by_second(folder, vector, name, *second)
    told = ", ".join("%s: %s" % (x, "seen" if results[x] else "NOT SEEN") for x in results)
    print("%-45s %-35s %s" % (what, kind + " " + name, told))
    return all(results.values())


with concurrent.futures.ThreadPoolExecutor(2) as pool:
    seen = list(pool.map(run, VERSIONS))
print("wrong versions: %d seen, %d not seen" % (sum(seen), len(seen) - sum(seen)))
sys.exit(0 if all(seen) else 1)
