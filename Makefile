# Hamutsigra: what is built and run around the proved layer.
#
#   make demo        build everything and run the worked card of document 01
#   make test        all proofs and tests: what .ci/run runs
#
#   make lib         prove the layer and write target/staticlib/libhamutsigra.a, unless
#                    nothing has changed since it was last written
#   make install     the tool, its manual page, the header and the library, below
#                    PREFIX (/usr/local)
#   make host-test   the tests of the host side
#   make cases       cases 1 to 11 by the second program, held against crates/cases/stdout
#   make c-example   the C examples, compiled as C and as C++, and run
#   make compare     the proved layer and the second program in lockstep, 30 seconds
#   make edits       the edits of definitions that must be refused, and where they are
#   make mutants     each definition changed in small ways, one at a time, and who refuses it: an hour or two, no part of the gate
#   make bench       the times of the proved commands
#   make stack       the stack frames of the library's functions, and the deepest path of each command held to the header's bound
#   make clean       remove what was built
#
# With HAMUTSIGRA_LIB_DIR set, the libhamutsigra.a in that folder (named from /) is
# taken as it is, and nothing is proved.

.PHONY: demo test lib install host-test cases c-example compare edits mutants bench stack clean

ifdef HAMUTSIGRA_LIB_DIR
LIBRARY := $(HAMUTSIGRA_LIB_DIR)/libhamutsigra.a
lib: ;
else
HAMUTSIGRA_LIB_DIR := $(CURDIR)/target/staticlib
LIBRARY := $(HAMUTSIGRA_LIB_DIR)/libhamutsigra.a
# The crates that the library is made of, and the kit that proves and compiles them.
CRATES := hamutsigra $(shell sed -n 's/\#.*//; s/^hamutsigra staticlib: *//p' crates.txt)
SOURCES := $(shell find $(CRATES:%=crates/%) -type f -not -path '*/must-fail/*' -not -path '*/out/*') crates.txt
KIT := $(shell command -v rt)
lib: $(LIBRARY)
$(LIBRARY): $(SOURCES) $(KIT)
	@echo "proving $(words $(CRATES)) crates, some minutes"
	cd crates/card && rt check
	cd crates/hamutsigra && rt lib
	@mkdir -p $(@D)
	cp crates/hamutsigra/out/libhamutsigra.a $@
endif
export HAMUTSIGRA_LIB_DIR

CARGO_FLAGS := --manifest-path host/Cargo.toml --offline --locked
BUILT := host/target/release
OUT := target/bench
PREFIX ?= /usr/local

demo: lib
	@echo "building the tools, less than a minute; nothing if they are built"
	@cargo build $(CARGO_FLAGS) --release
	@mkdir -p $(OUT)
	@rm -f $(OUT)/worked-card.img
	@echo "running the worked card of document 01 on $(OUT)/worked-card.img, a second"
	@$(BUILT)/card demo $(OUT)/worked-card.img

install: lib
	cargo build $(CARGO_FLAGS) --release --package card
	mkdir -p $(OUT)
	$(BUILT)/card --manual > $(OUT)/card.1
	install -d $(addprefix $(DESTDIR)$(PREFIX)/,bin share/man/man1 include lib)
	install -m 755 $(BUILT)/card $(DESTDIR)$(PREFIX)/bin/card
	install -m 644 $(OUT)/card.1 $(DESTDIR)$(PREFIX)/share/man/man1/card.1
	install -m 644 include/hamutsigra.h $(DESTDIR)$(PREFIX)/include/hamutsigra.h
	install -m 644 $(LIBRARY) $(DESTDIR)$(PREFIX)/lib/libhamutsigra.a

test:
	.ci/run

host-test: lib
	cargo fmt --manifest-path host/Cargo.toml --all --check
	cargo test $(CARGO_FLAGS) --workspace

cases:
	cargo run $(CARGO_FLAGS) --quiet --package second --example cases | diff - crates/cases/stdout

compare: lib
	cargo run $(CARGO_FLAGS) --release --package compare

edits:
	.ci/edits

mutants:
	.ci/mutants

bench: lib
	cargo run $(CARGO_FLAGS) --release --package bench

stack: lib
	objdump -d --no-show-raw-insn $(LIBRARY) | grep -E '^[0-9a-f]+ <.*>:|sub +\$$0x[0-9a-f]+,%rsp'
	.ci/stack $(LIBRARY)

WARNINGS := -Wall -Wextra -Werror -pedantic
EXAMPLES := pulled_card chip_on_a_bus

c-example: lib
	mkdir -p $(OUT)
	set -e; for name in $(EXAMPLES); do \
	    $(CC) -std=c99 $(WARNINGS) -Iinclude examples/c/$$name.c $(LIBRARY) -o $(OUT)/$$name; \
	    $(CXX) -std=c++11 $(WARNINGS) -Iinclude -x c++ examples/c/$$name.c -x none $(LIBRARY) -o $(OUT)/$${name}_cpp; \
	    $(OUT)/$$name; \
	    $(OUT)/$${name}_cpp; \
	done

clean:
	rm -rf target host/target crates/*/out
