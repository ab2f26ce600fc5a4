# `make run` is the first thing to try, `make build` makes the proved program, `make install` puts it where a shell finds it, and `make test` is all that CI runs.

# The program's crate; scripts/build proves all that a crate stands on, as crates.txt has it.
PROGRAM_CRATE := replicad
PROGRAM := crates/$(PROGRAM_CRATE)/out/replicad
# What `make bench` needs beside these: what times the certifier against the plain node, and what times versions and pages of rows,
# readers against a lock, and readers beside a node that serves.
TIMED := uses_snap run_trials run_timed
COMPARE := crates/run_trials/out/run_trials
PARTS := crates/run_timed/out/run_timed

.PHONY: run build install test check edits gate-time bench soak toolchain

# Judges the sample order within a minute: what judges is compiled, with checks at run time, and not proved yet.
run: toolchain
	@scripts/try judge < examples/first-order.txt

# Proves and builds what is missing, crate by crate, and judges the sample order with the proved program.
build: toolchain
	@scripts/build $(PROGRAM_CRATE)
	@$(PROGRAM) judge < examples/first-order.txt

# Puts the proved program, and its manual page, under PREFIX.
PREFIX ?= /usr/local
install: build
	@install -D -m 755 $(PROGRAM) "$(DESTDIR)$(PREFIX)/bin/replicad"
	@mkdir -p "$(DESTDIR)$(PREFIX)/share/man/man1"
	@scripts/manual docs/cli.md > "$(DESTDIR)$(PREFIX)/share/man/man1/replicad.1"

# All that CI runs: the gate, wrong bodies beside it, and then the cases of the built program, lives of a replica, and each refused growth in turn.
test: toolchain
	@scripts/test

# Proves what changed, crate by crate.
check: toolchain
	@rt all check

# Tries the wrong bodies that the gate leaves out for its time, several crates at once.
edits: toolchain
	@scripts/edits

# All that CI runs, with a clock round each task: what each crate costs (docs/gate.md).
gate-time: toolchain
	@scripts/gate-time

# Items judged in a second, for orders of 1,000, 10,000 and 100,000 items; what an item costs the certifier and the plain
# node; what a version that is added and a look-up cost among few and among many; rows of pages, with a pool and without; peeks in a second beside a publisher, and
# behind one lock; items and peeks in a second of a node that serves, beside no reader and beside more; and on a file durable commits in
# a second beside the same writes alone, checkpoints, and openings.
bench: toolchain
	@scripts/build $(PROGRAM_CRATE) $(TIMED)
	@scripts/bench $(PROGRAM) $(COMPARE) $(PARTS)

# Drawn lives of the proved program on a file, killed, stopped within writes and syncs, and opened again, for so many seconds, as
# `SECONDS=600 make soak`; with SEED=N from the life of this seed on.
SECONDS ?= 60
soak: toolchain
	@scripts/build $(PROGRAM_CRATE)
	@scripts/soak --seconds $(SECONDS) $(if $(SEED),--seed $(SEED))
	@scripts/soak --followed

toolchain:
	@command -v rt >/dev/null || { echo "The Rattle toolchain is missing: no command 'rt' on the path." >&2; exit 1; }
