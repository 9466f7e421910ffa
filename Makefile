# `make try` runs a grammar in a minute or less, unproved; `make test` runs every example and test, unproved, in minutes;
# `make prove` proves everything and leaves the program at crates/ale/out/ale.
GRAMMAR = examples/agreement.ale
COMMANDS = examples/agreement.cmd

.PHONY: try test prove

try:
	@examples/try "$(GRAMMAR)" "$(COMMANDS)"

test:
	@.ci/test

prove:
	rt ci
	examples/check
	@if [ -x examples/sizes ]; then examples/sizes; fi
