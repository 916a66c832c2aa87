# make run < FILE   runs halfmap on the lines of FILE: the proved program if that is up to date, and otherwise one that is built
#                   in about 20 seconds with nothing proved
# make prove        proves what users run, if something has changed: half_store, halfbrown and halfmap
# make test         proves what users run, if something has changed, and runs most tests
# make edits        puts one fault after another into the code: the prover, or a test, has to find each (WORD=.. picks some)
# make scripts      plays the scripts of tests/scripts on the program witness, built unproved, and on a model (WORD=.. picks some)
# make witness      plays N scripts at random (N=.., SEED=..) on both, and compares each line
# make bench        proves and builds what it times, if something has changed, prints times and memory, and draws docs/speed.svg
#                   (ROUNDS=3 takes fewer rounds than 9; WORDS="drain u64 1000" picks rows)
# make instructions proves and builds half_bench, if something has changed, and compares the instructions of each call with
#                   those that are stored (WORDS="insert String" picks rows)
# make archive      proves what users run, where something has changed, and packs it into a file (WITH="half_set .." adds crates)
# make unpack       puts what is proved in place, from such a file (FILE=..), if its SHA-256 sum is SUM=..
# make fmt          lays out the files of every crate

targets := help run prove test edits scripts witness bench instructions archive unpack fmt
.PHONY: $(targets)

no_rt = $(error There is no rt on the path; it is in the folder bin of Rattle's kit)
$(if $(filter-out help,$(MAKECMDGOALS)),$(if $(shell command -v rt 2>&1),,$(no_rt)))
no_write = $(error Nothing can be written to this folder: copy it, and run make in the copy)
writes := { mkdir -p out && : >out/try.$$$$ && rm out/try.$$$$ && echo yes; } 2>&-
$(if $(filter-out help,$(MAKECMDGOALS)),$(if $(shell $(writes)),,$(no_write)))
$(if $(shell echo '$(N)' | tr -d 0-9),$(error N is a number of scripts, and not $(N)))
# A file is read only by <.
ifneq ($(filter run,$(MAKECMDGOALS)),)
named := $(filter-out $(targets),$(MAKECMDGOALS)) $(if $(filter command,$(origin FILE)),$(FILE))
ifneq ($(strip $(named)),)
$(error Write: make run < $(firstword $(named)))
endif
endif

help:
	@sed -n '/^$$/q; s/^# //p' Makefile

run:
	@tests/run.sh

prove:
	@tests/prove.sh
	@echo "half_store, halfbrown and halfmap are proved: make run runs what was proved." >&2

test:
	@tests/gate.sh

edits:
	@tests/edits.py $(WORD)

scripts: out/covered/witness
	@WITNESS=$(CURDIR)/$< tests/scripts.py $(WORD)

witness: out/covered/witness
	@WITNESS=$(CURDIR)/$< tests/random_run.py $(or $(N),600) $(or $(SEED),1)

bench:
	@tests/bench.py $(or $(ROUNDS),9) $(WORDS)

instructions:
	@tests/prove.sh half_bench run && tests/instructions.py $(WORDS)

archive:
	@tests/archive.sh pack $(WITH)

unpack:
	@tests/archive.sh unpack '$(FILE)' '$(SUM)'

fmt:
	@for crate in crates/*/; do (cd "$$crate" && rt fmt) || exit 1; done

# A program that is built with nothing proved, and whose runs say which blocks they enter.
out/covered/%: $(wildcard crates/*/src/*.rt crates/*/src/*/*.rt crates/*/src/*/*/*.rt tests/coverage.*) crates.txt tests/build_unproved.sh
	@echo "$* is built unproved, in about $(if $(filter witness,$*),a minute,20 seconds)." >&2
	@tests/build_unproved.sh $* $@ covered
