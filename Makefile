# The commands of README.md; each does everything it needs on a fresh machine.

PREFIX = /usr/local
archive = crates/fennelrake/out/libfennelrake.a
# the folders too: a file that has gone leaves its folder newer
sources = crates.txt $(shell find crates/*/src crates/*/specs crates/*/proofs)

.PHONY: sample test install

# The worked passage, written as text, handed to the session program as bytes: rt run proves and builds it, says so on standard error, and runs it.
sample:
	@cd tools/passage && cargo build --release --quiet
	@tools/passage/target/release/passage < samples/c10.txt | (cd crates/session && rt run)

test:
	bash tests/all

# For C hosts, under DESTDIR where it's set: the files name PREFIX alone. The .pc file needs the whole path, also of a PREFIX relative to here.
install: $(archive)
	install -d $(DESTDIR)$(PREFIX)/lib/pkgconfig $(DESTDIR)$(PREFIX)/include $(DESTDIR)$(PREFIX)/share/man/man3
	install -m 644 $(archive) $(DESTDIR)$(PREFIX)/lib
	install -m 644 include/fennelrake.h $(DESTDIR)$(PREFIX)/include
	install -m 644 man/fennelrake.3 $(DESTDIR)$(PREFIX)/share/man/man3
	sed 's|@PREFIX@|$(abspath $(PREFIX))|' fennelrake.pc.in > $(DESTDIR)$(PREFIX)/lib/pkgconfig/fennelrake.pc
	chmod 644 $(DESTDIR)$(PREFIX)/lib/pkgconfig/fennelrake.pc

# Made where it isn't there, and made again where a source of the crates is newer, has come or has gone.
$(archive): $(sources)
	cd crates/fennelrake && rt lib
