# make test         the gate: make tidy and claims, then rt ci, then make gate-check and runs
# make checks       what needs no proof: use lines and edits, the claims page, and that these two see what they are to see
# make runs         what runs: the second implementation, the definitions and the proved library, on vectors and beside each other
# make tests        make checks and make runs
# make definitions  the definitions of specs/, as they stand there, on the vectors
# make shared-vectors VECTORS=folder   all vector files of a folder through the library's C calls and the program report
# make compare      the library's C calls beside the second implementation on more than a million inputs, the program report in FOLDERS folders
# make campaign     the calls under the AddressSanitizer, in two runs, SAMPLES=number of keys that each starts from
# make weak         the pair reader on collisions: a copy of the library whose hash is cut to a few values
# make bench        our time over that of C, in one run; make stack: the stack of each call
# make lib          library and header in dist/; make bin: the programs verdict and report there
# make pin          writes the table of numbers and tools/pinned.txt anew, to be reviewed
# make demo         an example of firmware: a badge, a door and an auditor
# make clean        removes what was built
CC = gcc
CFLAGS = -std=c11 -Wall -Wextra -Wpedantic -Iinclude -Ireference -Itests/c
FLAGS_O2 = -O2
FLAGS_O3 = -O3
FLAGS_sanitized = -O1 -g -fsanitize=address,undefined -fno-sanitize-recover=all
BUILD = target/tests
VECTORS = tests/vectors
SAMPLES = 16000
FOLDERS = 2000

REFERENCE = $(addprefix reference/,sha256.c aes128.c streams.c key.c tree.c execution.c transcript.c prover.c judge.c pair.c)
HEADERS = $(wildcard include/*.h reference/*.h tests/c/*.h)
LIBBADGE = target/staticlib/libbadge.a
LIBPRIMITIVES = target/staticlib/libprimitives.a
PROVED := crates.txt $(shell find crates/*/src crates/*/specs crates/*/proofs)

.PHONY: test checks runs tests tidy claims gate-check pin reference definitions spoiled primitives calls shared-vectors beside program compare campaign weak stack bench lib bin demo clean
.SECONDARY:

test:
	./.ci/run

checks: tidy claims gate-check

runs: reference definitions spoiled primitives calls weak beside program stack demo

tests: checks runs

tidy:
	python3 tools/check_tidy.py

claims:
	python3 tools/check_claims.py

gate-check:
	python3 tests/gate.py

pin:
	python3 tools/check_claims.py --pin

reference:
	$(MAKE) --no-print-directory -C reference test

$(BUILD)/libreference.so: $(REFERENCE) $(HEADERS) | $(BUILD)
	$(CC) $(CFLAGS) -O2 -shared -fPIC -o $@ $(REFERENCE)

definitions: $(BUILD)/libreference.so
	python3 tools/definitions.py $(BUILD)/libreference.so
	python3 tests/wrong_versions.py $(BUILD)/libreference.so


$(BUILD):
	mkdir -p $(BUILD)

# The proved library, and variants of it for tests: the static library of crate badge_c, and that of crate primitives.

$(LIBBADGE): CRATE = badge_c
$(LIBPRIMITIVES): CRATE = primitives
target/staticlib/lib%.a: $(PROVED) tools/build.py
	python3 tools/build.py $(CRATE) $@

# One rt at a time.
$(LIBBADGE): | $(LIBPRIMITIVES)

target/variant/badge.bc: $(LIBBADGE) tools/variant.py
	mkdir -p $(@D)
	python3 tools/variant.py badge_c $@

target/variant/sanitized.a: target/variant/badge.bc
	python3 tools/variant.py $< $@ sanitized

target/variant/weak%.a: target/variant/badge.bc
	python3 tools/variant.py $< $@ weak $*

# The second implementation and the library's calls, for tests: each one object for each set of flags.

$(BUILD)/%/reference.o: $(REFERENCE) reference/samples.c reference/calls.c $(HEADERS)
	mkdir -p $(@D)
	$(CC) $(CFLAGS) $(FLAGS_$*) -r -o $@ $(REFERENCE) reference/samples.c reference/calls.c

$(BUILD)/%/badge.o: reference/calls.c $(HEADERS) Makefile
	mkdir -p $(@D)
	$(CC) $(CFLAGS) $(FLAGS_$*) -DBADGE -r -o $@ reference/calls.c

# The library on vectors.

$(BUILD)/test_primitives: tests/c/test_primitives.c $(BUILD)/O2/reference.o $(LIBPRIMITIVES)
	$(CC) $(CFLAGS) -O2 -o $@ $^

primitives: $(BUILD)/test_primitives
	$(BUILD)/test_primitives

COMMANDS = $(BUILD)/badge/refcli
$(COMMANDS): reference/refcli.c $(BUILD)/O2/badge.o $(BUILD)/O2/reference.o $(LIBBADGE) $(LIBPRIMITIVES)
	mkdir -p $(@D)
	$(CC) $(CFLAGS) -O2 -DBADGE -o $@ $^

$(COMMANDS)_weak%: reference/refcli.c $(BUILD)/O2/badge.o $(BUILD)/O2/reference.o target/variant/weak%.a $(LIBPRIMITIVES)
	mkdir -p $(@D)
	$(CC) $(CFLAGS) -O2 -DBADGE -o $@ $^

# The program report, where the second implementation has report_files.
SHEETS = $(BUILD)/badge/report_files
$(SHEETS): target/bin/report
	mkdir -p $(@D)
	cp $< $@

calls: $(COMMANDS) $(SHEETS)
	python3 reference/vectors.py --build $(<D) --calls $(filter-out %/weak_pair.jsonl,$(wildcard tests/vectors/*.jsonl))

weak: $(COMMANDS)_weak2 $(COMMANDS)_weak16
	python3 reference/vectors.py --build $(<D) --calls $(VECTORS)/weak_pair.jsonl

shared-vectors: $(COMMANDS) $(SHEETS) $(COMMANDS)_weak2 $(COMMANDS)_weak16
	python3 reference/vectors.py --build $(<D) --calls $(VECTORS)

# What is wrong with a file or a folder of vectors is seen.
spoiled: $(BUILD)/libreference.so $(COMMANDS) $(SHEETS) $(COMMANDS)_weak2 $(COMMANDS)_weak16
	python3 tests/spoiled.py $< --build $(BUILD)/badge --calls

# The library beside the second implementation.

$(BUILD)/O2/compare: reference/compare.c $(BUILD)/O2/badge.o $(BUILD)/O2/reference.o $(LIBBADGE)
	$(CC) $(CFLAGS) $(FLAGS_O2) -DBADGE -o $@ $^

$(BUILD)/sanitized/compare: reference/compare.c $(BUILD)/sanitized/badge.o $(BUILD)/sanitized/reference.o target/variant/sanitized.a
	$(CC) $(CFLAGS) $(FLAGS_sanitized) -DBADGE -o $@ $^

compare: $(BUILD)/O2/compare target/bin/report $(BUILD)/O2/report_files $(BUILD)/libreference.so
	$< $(SAMPLES)
	python3 tests/report.py target/bin/report $(BUILD)/O2/report_files $(BUILD)/libreference.so $(FOLDERS)

# Two runs side by side, each with its own seed.
SEEDS = 1 3

campaign: $(BUILD)/sanitized/compare
	@for what in read write; do if $< overlong $$what > $(BUILD)/overlong.log 2>&1 || ! grep -q AddressSanitizer $(BUILD)/overlong.log; \
	then echo "the sanitizer does not see a $$what past the end"; exit 1; fi; done
	@printf '%s\n' $(SEEDS) | xargs -P 2 -I% sh -c '$< $(SAMPLES) % > $(BUILD)/campaign%.log 2>&1 || { cat $(BUILD)/campaign%.log; exit 1; }'
	@cat $(patsubst %,$(BUILD)/campaign%.log,$(SEEDS))

beside: $(BUILD)/O2/compare
	$< 200
	$(MAKE) --no-print-directory campaign SAMPLES=100

# The programs. One rt at a time.

target/bin/%: $(PROVED) tools/build.py | $(LIBBADGE)
	python3 tools/build.py $* $@

target/bin/report: | target/bin/verdict

$(BUILD)/%/report_files: reference/report_files.c $(BUILD)/%/reference.o
	$(CC) $(CFLAGS) $(FLAGS_$*) -o $@ $^

program: target/bin/verdict target/bin/report $(BUILD)/libreference.so $(BUILD)/O2/report_files
	python3 tests/program.py target/bin/verdict $(BUILD)/libreference.so
	python3 tests/report.py target/bin/report $(BUILD)/O2/report_files $(BUILD)/libreference.so

# Times.

$(BUILD)/bench_primitives_O%: tests/c/bench_primitives.c $(BUILD)/O%/reference.o $(LIBPRIMITIVES)
	$(CC) $(CFLAGS) -O$* -o $@ $^

$(BUILD)/bench_calls: tests/c/bench_calls.c $(BUILD)/O3/badge.o $(BUILD)/O3/reference.o $(LIBBADGE)
	$(CC) $(CFLAGS) -O3 -pthread -o $@ $^

stack: $(BUILD)/bench_calls
	$< stack

bench: $(addprefix $(BUILD)/,bench_primitives_O2 bench_primitives_O3 bench_calls O3/report_files libreference.so) target/bin/report
	$(BUILD)/bench_primitives_O2
	$(BUILD)/bench_primitives_O3
	$(BUILD)/bench_calls
	python3 tests/report.py target/bin/report $(BUILD)/O3/report_files $(BUILD)/libreference.so bench

# What a buyer holds in hand.

lib: $(LIBBADGE)
	mkdir -p dist
	cp $(LIBBADGE) include/badge.h dist/

bin: target/bin/verdict target/bin/report
	mkdir -p dist
	cp $^ dist/

$(BUILD)/demo: examples/firmware.c lib | $(BUILD)
	$(CC) -std=c11 -Wall -Wextra -Wpedantic -O2 -Idist -o $@ $(filter %.c %.o,$^) dist/libbadge.a

demo: $(BUILD)/demo
	@$<

clean:
	rm -rf target dist reference/build
