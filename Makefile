# The repository's two commands.
.PHONY: run gate

# Proves and builds showplan, and runs it on the sample feed.
run:
	cd crates/showplan && rt run < ../../samples/morning.txt

# The whole gate: all proofs, must-fail edits, tests and comparisons.
gate:
	.ci/run
