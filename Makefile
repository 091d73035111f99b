# `make demo` tells what the product does, `make test` runs the gate. Both do all their own set-up. `make bench` measures.
.PHONY: demo test bench

# The first run proves the demo and the crates below it before it is built, which takes some minutes.
demo:
	@tests/support/run demo

test:
	@.ci/run

# Instructions, time and stack of every call, beside portable C, sha2 and OpenSSL. docs/BENCHMARKS.md has the last tables.
bench:
	@bench/run
