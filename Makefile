# Two commands for a fresh machine that has the kit: `make run` and `make gate`.
.PHONY: run tender gate clean

# Proves and builds the programs, runs small tenders, and shares out a shortage.
run:
	cd crates/example && rt run
	cd crates/settlement_example && rt run
	cd crates/share && rt run -- remainder 7 3 510 5 3 2

# Proves and builds the programs over a tender file, and runs them on a worked book that is written as text.
tender:
	cd crates/encode && rt run -- data/book_a.txt > out/book_a.bin
	cd crates/tender && rt run -- ../encode/out/book_a.bin
	cd crates/statement && rt run -- ../encode/out/book_a.bin

# Proves every crate from nothing, tries each must-fail edit, runs the programs and the tests.
gate:
	.ci/run

clean:
	rm -rf crates/*/out
