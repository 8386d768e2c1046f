# `make` alone prints the targets. They need the kit's command `rt`, and Debian's packages, which they install by
# themselves where they may.

PROGRAM := crates/sefgulaw_loader/out/sefgulaw_loader
EXAMPLE := examples/session.jsonl

# The system's interpreter has Debian's libraries. Another `python3` may stand before it on the path.
PYTHON := /usr/bin/python3
CLIENT := clients/python
# The packages of tests/ that are held to the style of the client.
TESTED := run.py harness checks style wrong_bodies
LOADER := $(abspath $(or $(SEFGULAW_LOADER),$(PROGRAM)))

.PHONY: help clients clients-long has-loader quick run build measures shelf-trials readers embedding overlaps trials sessions schedules bell test lint digests golden language wrong-bodies answers limits allocations workers events batches under hostile giving-back bench harness check

help:  ## prints this list
	@awk -F ':.*## ' '/^[a-z][a-z -]*:.*## / { printf "%-17s %s\n", $$1, $$2 }' $(MAKEFILE_LIST)

# Shows each line of an example with its answer. It proves nothing: the kit interprets the program.
quick:  ## answers an example with the program, which is interpreted; nothing is proved (minutes)
	@tools/install-packages run
	@echo 'A quick look: the program is interpreted, and nothing is proved.'
	@cd crates/sefgulaw_loader && rt try -- run < ../../$(EXAMPLE) > quick.log 2> quick.err || { tail -n 30 quick.err quick.log; exit 1; }
	@paste -d '\n' $(EXAMPLE) crates/sefgulaw_loader/quick.log

# Proves what the program stands on, builds it, and shows each line of the example with its answer.
run: build  ## proves and builds the program, and answers an example with it (an hour)
	@$(PROGRAM) run < $(EXAMPLE) | paste -d '\n' $(EXAMPLE) -

build:  ## proves and builds the program (an hour)
	@tools/install-packages run
	@cd crates/sefgulaw_loader && rt run -- run < /dev/null > build.log 2>&1 || { tail -n 30 build.log; exit 1; }

# The program that measures, proved and built over the libraries of `build`. The gate does not build it.
measures: build  ## builds the program that measures, over the libraries of build (minutes)
	@python3 tests/harness/build.py

# The program that tries the shelf, built as `measures` is. Compares what readers find, and prints times.
shelf-trials: build  ## compares what readers of the shelf find, and prints times (minutes)
	@python3 tests/harness/build.py shelf_trials
	@for word in rows threads loads requests; do bench/out/shelf_trials $$word || exit 1; done | diff bench/shelf_trials/stdout -
	@python3 tests/run.py shelf_allocations --program $(PROGRAM)
	@for names in 1000 100000; do bench/out/shelf_trials times $$names || exit 1; done

# The example of an editor that embeds the loader, built as `measures` is. Compares what its readers find.
readers: build  ## builds and runs the example of an editor that embeds the loader (minutes)
	@python3 tests/harness/build.py readers
	@bench/out/readers | diff examples/readers/stdout -

# The gate: the house's rules of style, each crate's wrong bodies refused at its present text, every crate proved, the
# program run, and the checks of the built program. What takes a second comes first. A proof gets one job, since two cost
# a quarter more in sum.
# At its end the command `sefgulaw` is tried over the program.
test:  ## is the gate: style, digests, all proofs, the built program, and the command sefgulaw (an hour)
	@tools/install-packages run test
	@$(MAKE) --no-print-directory lint harness digests
	RT_JOBS=$$(nproc) rt ci
	python3 tests/run.py
	@$(MAKE) --no-print-directory clients

# The command `sefgulaw` over the built program: format, style, types, and the tests that take minutes at most.
clients: has-loader  ## tests the command sefgulaw over the built program (minutes)
	@tools/install-packages test
	cd $(CLIENT) && $(PYTHON) -m black --check --quiet .
	cd $(CLIENT) && $(PYTHON) -m flake8
	cd $(CLIENT) && $(PYTHON) -m mypy --no-error-summary
	cd $(CLIENT) && SEFGULAW_LOADER=$(LOADER) $(PYTHON) -m pytest -q -n 2 -m 'not long'

# Its long tests: many steps of random trees, real trees, packages in a fresh root, editors.
clients-long: has-loader  ## runs the long tests of the command sefgulaw (an hour)
	@tools/install-packages test packages long
	cd $(CLIENT) && SEFGULAW_LOADER=$(LOADER) $(PYTHON) -m pytest -q -m long

has-loader:
	@test -x $(LOADER) || { echo "no loader at $(LOADER): 'make run' builds it" >&2; exit 1; }

# Sentences, words and links of the documents, sizes of files and functions, the layout of the crates, and definitions
# and lemmas that nothing reaches.
lint:  ## checks documents, names, sizes, layout and dead definitions (seconds)
	@python3 tests/style
	@python3 tests/style/dead.py

# What the scripts of tests/ say of kept texts, which needs no prover and no program, with their format, style and types.
harness:  ## tests the scripts of tests/ themselves (seconds)
	@tools/install-packages test
	@cd tests && $(PYTHON) -m black --check --quiet $(TESTED)
	@cd tests && $(PYTHON) -m flake8 $(TESTED)
	@cd tests && $(PYTHON) -m mypy --no-error-summary $(TESTED)
	@cd tests && $(PYTHON) -m unittest --quiet style.test_style style.test_dead wrong_bodies.test_wrong_bodies \
	    harness.test_harness harness.test_build harness.test_refuse

# Checks of the built program by their names, each a file of tests/checks.
check: build  ## runs the checks NAME=.. of the built program, or those of the gate (minutes)
	@python3 tests/run.py $(NAME)

# Compares each crate with the digest at which its wrong bodies were refused.
digests:  ## compares each crate with the texts at which its wrong bodies were refused (seconds)
	@python3 tests/wrong_bodies --digests

# The golden sessions and the programs of the language, by the built program.
golden language: build  ## compares the golden sessions, or the programs of the language (seconds)
	@python3 tests/run.py $@

# Tries the wrong bodies of the crates that have changed since they were refused, or with ALL=1 of all crates, over the
# work that `rt check` kept. Two crates at once, or JOBS=N. Writes wrong-bodies.txt.
wrong-bodies:  ## has the wrong bodies of changed crates refused; ALL=1 of all crates (an hour)
	@python3 tests/wrong_bodies $(if $(ALL),--all) $(if $(JOBS),--jobs $(JOBS))

# The checks of the gate: golden sessions, programs of the language, the journal, words, devices, and texts that were cut.
answers: build  ## runs the gate's checks of the built program (seconds)
	@python3 tests/run.py

# Lines, texts and paths at their limits, and the memory of a program that is told many edits.
limits: build  ## tries lines, texts and paths at their limits, and memory (minutes)
	python3 tests/run.py limits --program $(PROGRAM)

# Each allocation of the program fails in turn, over examples and scripts, each of the parser over two files, and each
# of a script of values, of one of edits and look-ups, of one of a list of choices, and of two of sessions. Needs cc.
allocations: build measures  ## makes each allocation fail in turn; needs cc (minutes)
	python3 tests/run.py allocations parse_allocations script_allocations --program $(PROGRAM)

# The loader in a program of another repository, as docs/EMBEDDING.md shows it, in a folder outside this checkout.
embedding: build  ## does what docs/EMBEDDING.md says, in a folder outside this checkout (minutes)
	@python3 tests/embedding.py

# Turns that are under way at once, the rows of the board, and a thousand jobs; built as `measures` is.
overlaps: build  ## tries turns that are under way at once (minutes)
	@python3 tests/harness/build.py overlaps
	@bench/out/overlaps | diff tests/overlaps/stdout -

# All interleavings of threads that ring the bells of `pool` and of threads that wait by them: no ring is lost. It takes
# some ten seconds, and needs no program.
bell:  ## tries all interleavings of threads that wait for each other (seconds)
	@$(PYTHON) tests/bell.py

# What is compared over the libraries of the product: budgets, devices and turns in another order (`trials`), sessions
# and what they say of changes (`sessions`), and lists of choices (`schedules`). Built as `measures` is, with the
# libraries that `build` lacks. Each program reads its file `stdin`, and what it writes has to be its file `stdout`.
trials sessions schedules: build  ## compares budgets, sessions, and lists of choices (minutes)
	@python3 tests/harness/build.py $@
	@bench/out/$@ < tests/$@/stdin > bench/out/$@.stdout
	@diff tests/$@/stdout bench/out/$@.stdout
	@test $@ != trials || python3 tests/run.py talk --command 'bench/out/$@ talk' --program $(PROGRAM)
	@test $@ != sessions || python3 tests/run.py changes --program $(PROGRAM)
	@echo "$@: $$(wc -l < tests/$@/stdout) lines compared, 0 wrong"

# The same answers with 1 to 16 workers, over the gate's commands, scripts and 10,000 random scripts.
workers: build  ## compares answers with 1 to 16 workers (minutes)
	python3 tests/run.py workers --program $(PROGRAM)

# The events of the program beside its answers and its journal, and causes over 1,000 random scripts.
events: build  ## compares events with answers, journals and fresh loaders (minutes)
	python3 tests/run.py events --program $(PROGRAM)

# Batches of edits and the same edits one by one, over 10,000 random scripts.
batches: build  ## compares batches with the same edits one by one (minutes)
	python3 tests/run.py batches --program $(PROGRAM)

# All packages under a directory, and globs with directories, over 2,000 random trees, compared with plain models.
under: build  ## compares packages under directories with plain models (minutes)
	python3 tests/run.py under --program $(PROGRAM)

# Deep and wide sources by 1 and 16 workers, the stack that they take, the costs of lines at their limits, and how costs
# grow with the input.
hostile: build  ## tries deep and wide sources, their stack and their costs (minutes)
	python3 tests/run.py hostile stack costs growth --program $(PROGRAM)

# Values that are held by each kind of expression and statement while others are given back.
giving-back: build  ## holds values while others are given back (minutes)
	python3 tests/run.py garbage --program $(PROGRAM)

# Times of the program; prints a table.
bench: build measures  ## prints the times of the program (minutes)
	python3 bench/bench.py
	python3 bench/values.py
	python3 bench/programs.py
	python3 bench/lines.py 1000
	python3 bench/tables.py 10000 1000

include packaging/targets.mk
