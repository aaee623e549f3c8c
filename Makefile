# make run   checks the example cards step by step, and plans them
# make test  runs the gate
# make lib   builds the static library, and runs the C and the Rust program that call it
# make fuzz  compares the exported check with an independent reading of the rules
# make bench times the calls on large graphs, and beside them the program that PETGRAPH_BENCH names (docs/PERFORMANCE.md)
RT ?= rt
CARDS = crates/cardplan/data

.PHONY: run test bench examples

run: target/bin/cardplan
	target/bin/cardplan $(CARDS)/small.card
	target/bin/cardplan $(CARDS)/pairs.card
	target/bin/cardplan $(CARDS)/broken.card || echo "(status $$?, as it should be for a broken card)"
	target/bin/cardplan $(CARDS)/circle.card || echo "(status $$?, as it should be for a card without an order)"
	target/bin/cardplan $(CARDS)/recording.card $(CARDS)/changed.bits

test:
	@RT=$(RT) tools/gate.sh

bench: target/bin/bench
	python3 -B tools/bench.py $< "$(PETGRAPH_BENCH)"

# Proved, compiled, linked and tried; rt does again only what changed.
TRY_cardplan = data/small.card

target/bin/%: FORCE
	@mkdir -p target/bin
	@echo "proving and building $* (some minutes the first time)"
	@(cd crates/$* && $(RT) run -- $(TRY_$*)) > target/$*.log 2>&1 || { cat target/$*.log; exit 1; }
	@cp crates/$*/out/$* $@

FORCE:

# The shipped cards and image cases, and what is to be said of them, written anew.
examples:
	python3 -B tools/make_examples.py crates/cardplan
	python3 -B tools/make_cases.py crates/image_cases

include interop/targets.mk
