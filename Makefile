# make test      the gate: proves every crate, tries the must-fail edits, runs the programs and the comparisons
# make firmware  the library and its header for a Cortex-M4, in target/firmware/; OPT=-Os: for size
# make emulate   one exchange on an emulated Cortex-M4; RUNS=17: its runs
# make unlock    one exchange with the key that the program holds; KEY=FILE or '<FILE' for another key; RUNS=17: its runs
# make example   the same exchange in C; RUNS=17: its runs
# make bench     the table of docs/PERFORMANCE.md, measured here
# make soak      random sessions and extractor calls against the second implementation; SEED=1 COUNT=100000

SEED = 1
COUNT = 100000
OPT = -O2
RUNS = 17

.PHONY: test firmware emulate unlock example bench soak

test:
	@tools/test

firmware:
	@tools/firmware $(OPT)

emulate: firmware
	@tools/core-program target/firmware/exchange target/firmware/libunlock.a -DRUNS=$(RUNS) firmware/main.c examples/exchange.c
	@tools/on-core target/firmware/exchange

unlock:
	@RUNS="$(RUNS)" tools/unlock $(if $(KEY),"$(KEY)")

example:
	@tools/staticlib capi
	@mkdir -p target/example
	@$(CC) -std=c99 -O2 -Wall -Wextra -Iinclude -DRUNS=$(RUNS) -o target/example/exchange examples/*.c target/staticlib/libcapi.a
	@target/example/exchange

bench:
	@bench/run

soak:
	@compare/soak/soak $(SEED) $(COUNT)
