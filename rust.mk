# C and Rust over the proved library. LBQ_LIB_DIR names the folder of another liblbq.a; without it the library is proved
# and written first. LBQ_LINK is what else such an archive has to be linked with from C.

STEPS ?= 10000000
RT ?= rt
export RT CC
CFLAGS ?= -O2 -Wall -Wextra -Wpedantic -Werror
c99 := $(CC) $(CFLAGS) -std=c99 -Iinclude
cxx11 := $(CXX) $(CFLAGS) -std=c++11 -Iinclude -x c++ -fsyntax-only

lbq_lib := $(if $(LBQ_LIB_DIR),given,lib)
override LBQ_LIB_DIR := $(if $(LBQ_LIB_DIR),$(abspath $(LBQ_LIB_DIR)),$(CURDIR)/target/staticlib)
export LBQ_LIB_DIR
linked_with = -L$(LBQ_LIB_DIR) -llbq $(LBQ_LINK)
if_installed = cd rust && if cargo $(1) --version >/dev/null 2>&1; then cargo $(1) $(2); \
	else echo "there is no cargo $(1) here, so nothing is said of the Rust code by it"; fi

.PHONY: lib keep-lib native given first rust soak bench

# The library for C and Rust: target/staticlib/liblbq.a.
lib:
	@mkdir -p target/staticlib
	@cd crates/lbq && $(RT) lib
	@cp crates/lbq/out/liblbq.a target/staticlib/

# The library where `cargo build` finds it, after the gate; it is proved by then.
keep-lib:
	@mkdir -p target
	@$(MAKE) --no-print-directory lib >target/keep-lib.log 2>&1 || { cat target/keep-lib.log >&2; exit 1; }
	@echo "the library is target/staticlib/liblbq.a, for x86-64"

# The same proved module by the toolchain's other compiler into target/native: for comparing.
native:
	@rust/native-lib target/native

given:
	@test -f "$(LBQ_LIB_DIR)/liblbq.a" || { echo "LBQ_LIB_DIR: there is no $(LBQ_LIB_DIR)/liblbq.a" >&2; exit 1; }

# The C examples, built as C and the header as C++, print what they should: first.c its lines, play.c every stored
# schedule's, the README's program its own. The header's numbers and words are held to the proved definitions.
first: $(lbq_lib)
	@mkdir -p target/c
	@sed -n '/^```c$$/,/^```$$/p' README.md | sed '/^```/d' >target/c/readme.c
	@for name in first play held; do $(c99) examples/c/$$name.c $(linked_with) -o target/c/$$name || exit 1; done
	@for name in first play held; do $(cxx11) examples/c/$$name.c || exit 1; done
	@$(c99) target/c/readme.c $(linked_with) -o target/c/readme
	@target/c/first | diff examples/c/first.expected -
	@examples/played "$(CURDIR)/target/c/play"
	@examples/c/held "$(CURDIR)/target/c/held"
	@test "$$(target/c/readme)" = "WHOLE 100"
	@echo "the C examples print what they should, and the header says what the definitions say"

# The Rust crate: its layout, clippy's advice, its pages, its examples; library, model and book on a fixed stretch of
# runs.
rust: $(lbq_lib)
	@$(call if_installed,fmt,--check)
	@$(call if_installed,clippy,--offline --release --quiet --all-targets -- -D warnings)
	@cd rust && RUSTDOCFLAGS="-D warnings" cargo doc --offline --release --quiet --no-deps
	@cd rust && cargo test --offline --release
	@examples/played cargo run --offline --release --quiet --manifest-path "$(CURDIR)/rust/Cargo.toml" --example play

# Library, model and book on STEPS steps, from SEED or from the clock.
soak: $(lbq_lib)
	@cd rust && cargo run --offline --release --quiet --bin soak -- $(STEPS) $(SEED)

# What a step costs through the library, beside the model.
bench: $(lbq_lib)
	@cd rust && cargo run --offline --release --quiet --bin bench
