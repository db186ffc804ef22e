# make run: proves and builds the job program, runs it on J of the rules and says what each line is.
# make test: the gate, the one verdict.
# make bench: what the loops and the calls cost (docs/BENCH.md).
# make soak: the static library against the second program on a million generated calls (host/README.md).
# make layers: docs/layers.svg, which crate stands on which, drawn anew from crates.txt (graphviz).
.PHONY: run test bench soak layers

run:
	tools/build_job
	tools/job

test:
	bash .ci/run

bench:
	bash bench/run

soak:
	bash tests/product/soak

layers:
	tools/layers <crates.txt >docs/layers.dot
	dot -Tsvg docs/layers.dot -o docs/layers.svg
