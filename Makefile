# Short names for the commands of this tree. The gate needs none of them: `make test` is `rt ci`.
payment := ../../examples/payment

.PHONY: help quick run test lib lib-aarch64 examples checks bench

help:
	@echo 'make quick        runs examples/payment by an interpreter, and proves nothing'
	@echo 'make run          proves and builds the program, and runs examples/payment'
	@echo 'make test         the gate: every proof, every wrong body, every test'
	@echo 'make lib          the C library, crates/ffaspm_c/out/libffaspm_c.a'
	@echo 'make lib-aarch64  the same for AArch64, in the same place'
	@echo 'make examples     runs the C examples, and the firmware in an emulator'
	@echo 'make checks       what the gate leaves out: want of memory, what is taken and left of it, the README'
	@echo 'make bench        times edits of tables, calls and scripts'

quick:
	cd crates/ffaspm && rt try --data m=$(payment)/manifest.toml --data s=$(payment)/calls.script -- run m s

run:
	cd crates/ffaspm && rt run -- run $(payment)/manifest.toml $(payment)/calls.script

test:
	rt ci

lib:
	cd crates/ffaspm_c && rt lib

lib-aarch64:
	cd crates/ffaspm_c && rt lib --target aarch64-unknown-linux-gnu

examples:
	examples/c/run.sh
	examples/firmware/run

# The program, the library and the tests that they look at are built first, over what was proved before.
checks: run lib
	cd crates/ledger_tests && rt test
	cd crates/call_tests && rt test
	checks/refusals.sh
	checks/refused_calls.sh
	checks/leaks.sh
	checks/donations.sh
	checks/bound.sh
	checks/room.sh
	checks/readme.sh

bench:
	bench/tables.sh
	bench/cycles.sh
	bench/readers.sh
	bench/desks.sh
	bench/scripts.sh
