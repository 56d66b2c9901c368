# run: builds the programs and judges the bundled examples. test: the gate.
EXAMPLES = $(sort $(wildcard examples/*/))

.PHONY: run test
run:
	scripts/build.sh
	@for d in $(EXAMPLES); do echo "== $$d"; (cd $$d && $(CURDIR)/target/bin/judge); done

test:
	.ci/run
