PREFIX ?= $(HOME)/.local
COUNT ?= 10000
SEEDS ?= 1

.PHONY: believed bench demo documents documents-check edits example folder inspect install lake model names pages \
	paths refusals samples schedules test times

# Runs the stored script of the program without a proof, and shows each line before its replies.
demo:
	@scripts/program.sh demo

# Proves and builds the program, and says where it lies.
lake:
	@cd crates/lake && rt run -- $$(cat args) < stdin > /dev/null
	@echo "built: crates/lake/out/lake"

# Copies the built program to PREFIX/bin; run `make lake` before it.
install:
	@install -D crates/lake/out/lake "$(PREFIX)/bin/lake"
	@echo "installed: $(PREFIX)/bin/lake"

# Proves and builds the program that prints what bytes are, and says where it lies.
inspect:
	@cd crates/lake_inspect && rt run -- data/schema.json < stdin > /dev/null
	@echo "built: crates/lake_inspect/out/lake_inspect"

# Times the built program on a few scripts and folders; run `make lake` before it.
bench:
	@scripts/program.sh bench

# Has the built program read small data files that ask for much, and looks at its answers and at the most memory that it
# held; with Python 3.11, without a package. Run `make lake` before it.
pages:
	@python3 scripts/bench/pages.py

# Tries the built program on folders in a temporary directory, in at most two minutes: kills, calls that fail, and
# processes that race; with Python 3.11, without a package. Run `make lake` before it.
folder:
	@python3 scripts/folder/try_folders.py

# Compares the stored answers of cases with those of an independent model, in Python 3.11 without a package, and looks
# that none of them says that memory was refused.
model:
	@python3 scripts/model/check_cases.py

# Writes what documents print of the code: ARCHITECTURE's tables, the list of crates/README.md, GATE's counts, the table
# of REFUSALS, the lines of links. Then it does what documents-check does.
documents:
	@python3 scripts/documents.py --write

# Looks that the documents say what the code says: what is printed, links, codes, and the clauses that PROVED names; in
# a few seconds, with Python 3.11, without a package. `.ci/run` does it first.
documents-check:
	@python3 scripts/documents.py

# Looks that what files import of definitions and proofs stands there, in seconds and without a proof; of CRATES alone,
# where they are given.
names:
	@python3 scripts/names.py $(CRATES)

# The same of the refusals alone: the table of docs/REFUSALS.md is the one in code, and explains just its codes.
refusals:
	@python3 scripts/documents.py REFUSALS refusal_texts

# Prints the definitions that a clause comes to: make believed CLAUSE=stream_model::every_world::headline
believed:
	@python3 scripts/believed.py $(CLAUSE)

# Runs the examples of README.md and docs/FORMATS.md with the built program, and compares, in Python 3.11 without a
# package. Run `make lake` before it.
samples:
	@python3 scripts/samples.py

# Runs the program that docs/STREAMS.md shows on a copy, without a proof, and compares what it prints; some two minutes.
example:
	@python3 scripts/example.py

# Runs the built program on random scripts of several actors, and compares what it is told with the model, and with what
# has to hold of batches and reads: COUNT lines for each of SEEDS. Run `make lake` before it.
schedules:
	@scripts/program.sh schedules $(COUNT) $(SEEDS)

# The gate: proves everything from nothing, tries the must-fail edits, and runs every program and test.
test:
	@rt ci

# Tries the wrong bodies that are kept as text, of some crates: make edits CRATES="shred sink_core"
edits:
	@scripts/edits.sh $(CRATES)

# Measures a run of the gate, and prints GATE's table of it; or CRATES alone, one at a time.
times:
	@python3 scripts/cost.py $(CRATES)

# Counts the files that rt reads of the libraries below each crate, where it keeps no sums of them.
paths:
	@python3 scripts/cost.py --paths $(CRATES)
