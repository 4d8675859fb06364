# The commands of the house. `make help`, `make play`, `make text` and `make test` need the Rattle toolchain alone.

.PHONY: help play text test stored toolchain linked unlinked

SCHEDULE ?= schedules/listing.lbq

# The commands, each with what it does.
help:
	@echo "make play                 play the paper's listing; SCHEDULE=file plays a file, bytes (.lbq) or text (.txt)"
	@echo "make play TELL=1          the same, each step beside its answer"
	@echo "make text SCHEDULE=file   a schedule's bytes as text"
	@echo "make test                 prove every crate from nothing, try every must-fail edit, run every program"
	@echo "make lib                  the library for C and Rust (x86-64): target/staticlib/liblbq.a"
	@echo "make native               the same by the toolchain's other compiler, for comparing: target/native/liblbq.a"
	@echo "make first                build and run the C examples"
	@echo "make rust                 the Rust crate's tests, and the library compared with a model in plain Rust"
	@echo "make soak STEPS=n         compare n steps more; SEED=s repeats a run"
	@echo "make bench                what a step costs through the library, beside the model"
	@echo "docs/ has what a line is, how schedules are written, what is proved and where"

# Plays a schedule: its lines, and nothing else, go to standard output.
play: toolchain
	@schedules/play $(if $(TELL),--tell) "$(SCHEDULE)"

# A schedule's bytes as text.
text: toolchain
	@schedules/text "$(SCHEDULE)"

# What is stored, then the library as C and Rust link it, then the verdict from nothing: every file in the layout, every
# crate proved, every must-fail edit refused, every program run. An edit that could not be applied shows nothing, and
# fails here too. The library is left where `cargo build` finds it.
test: toolchain stored linked
	@mkdir -p target && rm -f target/verdict.*
	@{ rt ci; echo $$? >target/verdict.status; } 2>&1 | tee target/verdict.log
	@exit "$$(cat target/verdict.status)"
	@if grep -q '^rt: ok.*, [1-9][0-9]* bad' target/verdict.log; then \
	    echo "must-fail edits could not be applied: see 'bad' above" >&2; exit 1; fi
	@$(MAKE) --no-print-directory keep-lib >/dev/null

# Every stored schedule is what its text says.
stored: toolchain
	@schedules/check

# The house is proved with the toolchain that the file `toolchain` names. Another one may do as well.
toolchain:
	@command -v rt >/dev/null || { echo "there is no rt here: install the Rattle toolchain and put its bin/ on PATH" >&2; exit 1; }
	@grep -qxF "$$(rt version)" toolchain || \
	    echo "note: rt is '$$(rt version)', and this house was proved with the one that the file toolchain names" >&2

# Where cargo and a C compiler are at hand the library is linked and compared with the model.
have = $(shell command -v $(1))
linked: $(if $(and $(call have,cargo),$(call have,$(CC)),$(call have,$(CXX))),first rust,unlinked)

unlinked:
	@echo "no cargo or no C compiler here: the library is not linked, and not compared with the model"

include rust.mk
