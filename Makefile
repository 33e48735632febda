# make run        prove and build what the main job needs, and run it
# make archive    prove the C interface and write the archive that a C or Rust program links, target/staticlib/libusigrambal.a
# make shared     the same as a shared library, target/sharedlib/libusigrambal.so.3
# make install    the command with man pages and completion, the C header, archive and shared library, to PREFIX (default: /usr/local), below DESTDIR if given
# make uninstall  remove from PREFIX what install wrote there
# make test       the gate: format, every proof, every test
# make bench      the table of ratios, all rows measured in one run; for README: make bench BENCH="--markdown --peers"
# make fuzz       each call of the C interface against the second implementation under libFuzzer, 30 s a call; longer: make fuzz SECONDS_PER_CALL=600
.PHONY: run archive shared command pages install uninstall test bench fuzz

PREFIX = /usr/local
DESTDIR =
SECONDS_PER_CALL = 30
BENCH =
C_CRATES = c_text c_disk_c c_string c_flash c_layout
ARCHIVE = target/staticlib/libusigrambal.a
BENCH_ARCHIVE = target/staticlib/libbench_octets.a
SONAME = libusigrambal.so.3
SHARED = target/sharedlib/$(SONAME)
COMMAND = target/command/release/usigrambal
PAGES = target/pages
SOURCES = crates.txt $(shell find crates -name out -prune -o \( -name '*.rt' -o -name '*.antt' \) -print)
VERSION = $(shell sed -n 's/^version = "\(.*\)"/\1/p' host/Cargo.toml)

run:
	cd crates/fmd_list && rt run <../../examples/sample10.fmd

archive: $(ARCHIVE)

shared: $(SHARED)

# The archive of each crate, crates/NAME/out/libNAME.a, has its exported functions alone; `ar` joins them. They are built side by side: each waits for what
# another one proves below it.
$(ARCHIVE): $(SOURCES)
	@echo 'proving and compiling the library: about ten minutes on four processors, less where proofs are kept from before'
	builds=; for crate in $(C_CRATES); do (cd crates/$$crate && exec rt lib >/dev/null) & builds="$$builds $$!"; done; \
	    for build in $$builds; do wait $$build || exit 1; done
	mkdir -p target/staticlib
	cd target/staticlib && { echo create libusigrambal.a; for crate in $(C_CRATES); do echo "addlib ../../crates/$$crate/out/lib$$crate.a"; done; \
	    echo save; } | ar -M

# What the benchmark alone calls.
$(BENCH_ARCHIVE): $(SOURCES)
	cd crates/bench_octets && rt lib >/dev/null
	mkdir -p target/staticlib
	cp crates/bench_octets/out/libbench_octets.a $(BENCH_ARCHIVE)

# The archive's code is position independent. Only the calls are seen from outside.
$(SHARED): $(ARCHIVE)
	@echo 'linking the shared library'
	mkdir -p target/sharedlib
	echo '{ global: usi_*; local: *; };' >target/sharedlib/exports
	gcc -shared -Wl,--whole-archive $(ARCHIVE) -Wl,--no-whole-archive -Wl,-soname,$(SONAME) -Wl,--version-script=target/sharedlib/exports \
	    -Wl,-z,defs -Wl,-z,now -Wl,-z,text -o $(SHARED)
	ln -sf $(SONAME) target/sharedlib/libusigrambal.so

# Linked as host/command/.cargo/config.toml says, statically; dynamically where this machine has no static C library.
command: $(ARCHIVE)
	@echo 'building the command: about half a minute, less where it was built before'
	cd host/command && if echo 'int main(void) { return 0; }' | gcc -static -x c - -o /dev/null 2>/dev/null; \
	    then cargo build --release --quiet; else RUSTFLAGS= cargo build --release --quiet; fi

# The command writes its man pages and its completion, from the texts of its help.
pages: command
	@echo 'writing man pages and completion'
	mkdir -p $(PAGES)
	for page in $$($(COMMAND) --page); do $(COMMAND) --page $$page >$(PAGES)/$$page || exit 1; done

# Everything stands below this folder; the files know only of PREFIX.
to = $(DESTDIR)$(PREFIX)

install: command pages shared
	@echo 'installing to $(to)'
	install -D -m 755 $(COMMAND) "$(to)/bin/usigrambal"
	install -D -m 644 include/usigrambal.h "$(to)/include/usigrambal.h"
	install -D -m 644 $(ARCHIVE) "$(to)/lib/libusigrambal.a"
	install -D -m 755 $(SHARED) "$(to)/lib/$(SONAME)"
	ln -sf $(SONAME) "$(to)/lib/libusigrambal.so"
	install -d "$(to)/share/usigrambal"
	install -m 644 python/usigrambal.py python/usigrambal_words.py "$(to)/share/usigrambal"
	install -d "$(to)/lib/pkgconfig" "$(to)/share/man/man1"
	printf '%s\n' 'prefix=$(PREFIX)' 'includedir=$${prefix}/include' 'libdir=$${prefix}/lib' '' 'Name: usigrambal' \
	    'Description: Flash and disk layouts, proved: FMD, FMAP, GPT' 'Version: $(VERSION)' \
	    'Cflags: -I"$${includedir}"' 'Libs: -L"$${libdir}" -lusigrambal' >"$(to)/lib/pkgconfig/usigrambal.pc"
	install -m 644 $(PAGES)/*.1 "$(to)/share/man/man1"
	install -D -m 644 $(PAGES)/usigrambal.bash "$(to)/share/bash-completion/completions/usigrambal"

uninstall:
	rm -f "$(to)/bin/usigrambal" "$(to)/include/usigrambal.h" "$(to)"/lib/libusigrambal.a "$(to)"/lib/libusigrambal.so "$(to)/lib/$(SONAME)" \
	    "$(to)/lib/pkgconfig/usigrambal.pc" "$(to)"/share/man/man1/usigrambal.1 "$(to)"/share/man/man1/usigrambal-*.1 \
	    "$(to)/share/bash-completion/completions/usigrambal"
	rm -rf "$(to)/share/usigrambal"

test:
	.ci/run

bench: archive command $(BENCH_ARCHIVE)
	cd crates/fmd_list && rt run </dev/null >/dev/null
	tests/moves
	host/bench/peers/make
	cd host && cargo build --release --quiet
	cd host && cargo run --release --quiet -p bench -- $(BENCH)

fuzz: archive
	SECONDS_PER_CALL=$(SECONDS_PER_CALL) fuzz/run
