# make run    prove what the plan printer needs, and print the plan of samples/sample.set (make run SET=file: of another set)
# make test   the whole gate: layout, proofs from nothing, must-fail edits, programs, the Rust and C tests
# make lib    the static library for C and Rust: target/staticlib/libcanceller.a (header: include/canceller.h)
# make command   the command for test engineers: target/canceller
# make install PREFIX=/usr/local   the header, the static library, its pkg-config file, the command and its manual page, as they
#             were built; make uninstall takes them away; DESTDIR is put before every path
# make soak SECONDS=60   random calls by the library and the second implementation
# make bench  the benchmark's tables, and the picture docs/growth.svg
# make faults  each fault of reference/faults/ put into the second implementation, and what the tests say of it (not in the gate)
# make wrong  each must-fail edit as a program without proof, run beside the library: an edit that behaves the same is no wrong
#             program (not in the gate; make wrong EDITS="judge expectation/expected_bits_all_zero": a crate's edits and one edit)
# make bench-instructions   instructions of each call, by valgrind's callgrind
# make bench-against BEFORE=folder   each call beside that of another folder of this repository (make lib has been run there), in
#             one run
# make bench-csv   rows a second of canceller judge --csv, and the library's share of the time
# make fmt    lay every source out as the gate asks
.PHONY: run test lib command install uninstall soak faults wrong bench bench-instructions bench-against bench-csv fmt tools cargo rust-tools

SECONDS ?= 60

SET ?= samples/sample.set

run: tools
	@test -r "$(SET)" || { echo "$(SET) can't be read"; exit 1; }
	@scripts/prove.sh plan_printer
	@scripts/library.sh plan_printer
	@./target/bin/plan_printer < "$(SET)"

test: tools rust-tools
	scripts/test.sh

lib: tools
	scripts/library.sh canceller

command: lib cargo
	scripts/command.sh

PREFIX ?= /usr/local

install:
	@scripts/install.sh install "$(DESTDIR)" "$(PREFIX)"

uninstall:
	@scripts/install.sh uninstall "$(DESTDIR)" "$(PREFIX)"

soak: lib rust-tools
	cargo run --offline --release --manifest-path reference/Cargo.toml -p reference --bin soak -- $(SECONDS)

faults: lib rust-tools
	scripts/faults.sh

wrong: tools
	@command -v python3 >/dev/null || { echo "python3 is not on the path: tools/wrong needs it"; exit 1; }
	tools/wrong $(EDITS)

bench: lib rust-tools
	scripts/bench.sh

bench-instructions: lib rust-tools
	scripts/bench.sh instructions

bench-against: lib rust-tools
	scripts/bench.sh against "$(BEFORE)"

bench-csv: command
	mkdir -p target/bench
	cargo run --offline --release --manifest-path command/Cargo.toml --example bench_csv -- target/canceller target/bench

fmt: tools rust-tools
	for c in crates/*/; do (cd "$$c" && rt fmt) || exit 1; done
	cargo fmt --all --manifest-path reference/Cargo.toml
	cargo fmt --manifest-path command/Cargo.toml

tools:
	@command -v rt >/dev/null || { echo "rt, the command of the Rattle kit, is not on the path"; exit 1; }

cargo:
	@command -v cargo >/dev/null || { echo "cargo is not on the path: the command and the Rust tests need it"; exit 1; }

rust-tools: cargo
	@for c in cc c++ nm pkg-config; do command -v $$c >/dev/null || { echo "$$c is not on the path: the tests of the C header need it"; exit 1; }; done
