.PHONY: test edits build demo install bench

CFLAGS = -std=c99 -Wall -Wextra -Werror -O2
PREFIX = /usr/local
ARCHIVE = target/staticlib/libskimp.a
TOOL = target/cargo/release/skimp

# The gate: proofs, must-fail edits, programs, the tests in rust/, the supervisor in examples/, the installation and the demo.
test:
	@tools/gate

# The must-fail edits of one crate, tried: make edits CRATE=name. Without CRATE: whether the texts of all edits still fit.
edits:
	@tools/edits $(CRATE)

# The archive, proved. rt itself sees what has changed, but takes some 20 s to see that nothing has.
$(ARCHIVE): crates.txt $(shell find crates -name out -prune -o -name '*.rt' -print -o -name '*.antt' -print)
	@tools/library skimp_c $@
	@touch $@

# The archive, and the command over it.
build: $(ARCHIVE)
	@cd rust && cargo build --release --offline --locked --quiet --package skimp-tool

# What the product does: a program from source to object, sheet and run; objects compared; refusals.
demo: build target/demo/supervisor
	@tools/demo

# The command with its manual page, and the archive with its header, below PREFIX. DESTDIR goes before it.
install: build
	@install -D -m 755 $(TOOL) $(DESTDIR)$(PREFIX)/bin/skimp
	@install -D -m 644 docs/skimp.1 $(DESTDIR)$(PREFIX)/share/man/man1/skimp.1
	@install -D -m 644 include/skimp.h $(DESTDIR)$(PREFIX)/include/skimp.h
	@install -D -m 644 $(ARCHIVE) $(DESTDIR)$(PREFIX)/lib/libskimp.a

# The time of the proved calls against that of plain Rust; then what the archive takes of the box.
bench: $(ARCHIVE)
	@cd rust && cargo run --release --offline --locked --quiet --package skimp --example bench
	@tools/archive $(ARCHIVE)

target/demo/supervisor: examples/supervisor.c include/skimp.h $(ARCHIVE)
	@mkdir -p $(@D)
	@$(CC) $(CFLAGS) -Iinclude examples/supervisor.c $(ARCHIVE) -o $@
