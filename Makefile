# make run: prove and build the main program and run it on its sample input. make test: the gate.

.PHONY: run test

run:
	cd crates/classify && rt run < stdin

test:
	.ci/run
