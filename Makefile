# `make first` runs the main job, `make test` is the gate and the examples, `make` alone is `make help`.
.PHONY: help first examples tapes test clean

# Lists the targets.
help:
	@echo "make first     proves and builds spoolrun, and runs the first tape (the better part of an hour the first time, then seconds)"
	@echo "make examples  builds spoolrun if need be, runs the examples and what the documents show, and compares"
	@echo "make tapes     makes examples/X.tape of each examples/X.requests"
	@echo "make test      the gate: proves everything, tries planted bugs, runs tests, programs and examples"
	@echo "make clean     removes what was built"

# Proves and builds spoolrun, and runs the first tape in a fresh folder.
first:
	@echo "proving and building spoolrun: the first time this may take the better part of an hour, after that seconds" >&2
	@tools/build.sh spoolrun
	@top=$$(pwd) && folder=$$(mktemp -d) && cd $$folder && $$top/crates/spoolrun/out/spoolrun run < $$top/examples/first.tape

# Runs the built program on each example and on each request that the documents show.
examples:
	@tools/build.sh spoolrun
	@tools/check_examples.sh crates/spoolrun/out/spoolrun

# Makes the tapes of their lists of requests.
tapes:
	@for list in examples/*.requests examples/*/*.requests; do examples/frame.sh $$list > $${list%.requests}.tape || exit 1; done

test:
	@.ci/run

clean:
	rm -rf crates/*/out
