#   make run        develops examples/glaze.bayr by the proved program and prints it; FRAME=path takes another frame file
#   make curve      prints the same through the tone curve; FRAME here too
#   make unproved   prints what make run prints, within seconds, by the same program with no proof tried
#   make test       proves every crate and passes the tests; its last line is 'N passed, M failed'
#   make lib        proves the library and writes build/lib/libbayer.a and libbayer.so
#   make install    puts the libraries, the header, the pkg-config file and FORMAT.md under PREFIX, once they are made
#   make lib-check  has rt lib prove and build the library from nothing, and compares the bytes
#   make tool       builds the command-line tool, build/tool/release/bayer-tool
#   make turned     develops the built-in glaze before and after the list CHANGES, by the library and by the old way
#   make soak       CALLS random and damaged calls of every export, against the independent implementation; SEED, FROM repeat them
#   make bench      times the proved library beside the versions of bench/, in some minutes, and writes docs/performance.svg
#   make profile    tells the calls and the share of the time of each function in develop, on TEXTURE
#   make help       prints these lines, as make alone does
PREFIX ?= /usr/local
CHANGES ?= transpose left-right
FRAME ?= examples/glaze.bayr
export FRAME
.PHONY: help run curve unproved test lib install lib-check tool turned soak bench profile

help:
	@sed -n 's/^#   //p' Makefile

# A tool that a target needs and that is not there is told before anything is done.
need-%:
	@tools/needs $*

run: need-rt
	@tools/print proved print_frame "$$FRAME"

curve: need-rt
	@tools/print proved print_curve "$$FRAME"

unproved: need-rt
	@tools/print unproved print_frame "$$FRAME"

test: need-rt need-gcc need-cargo
	@tests/run

lib: need-rt need-gcc build/lib/libbayer.so

# Proved anew where it is not proved as it stands, and otherwise left as it is.
build/proved/libbayer_c.a: need-rt
	@tools/proofs/prove bayer_c

build/lib/libbayer.so: build/proved/libbayer_c.a include/bayer.h $(wildcard library/*)
	@library/build

install: need-rt need-gcc build/lib/libbayer.so
	@library/install "$(abspath $(PREFIX))"

lib-check: lib
	@library/check

tool: need-cargo need-gcc build/lib/libbayer.so
	@CARGO_TARGET_DIR=build/tool cargo build --quiet --release --manifest-path tools/bayer-tool/Cargo.toml

turned: tool
	@build/tool/release/bayer-tool turned $(CHANGES)

soak: need-cargo need-gcc build/lib/libbayer.so
	@CARGO_TARGET_DIR=build/compare cargo run --quiet --release --manifest-path tests/compare/Cargo.toml --bin soak -- \
	    "$(CALLS)" "$(SEED)" "$(FROM)"

# what the versions of bench/ are built for: the processor of the library, to compare like with like
bench: PROCESSOR = x86-64

bench: need-cargo lib
	@RUSTFLAGS="-C target-cpu=$(PROCESSOR)" CARGO_TARGET_DIR=build/bench \
	    cargo run --quiet --release --manifest-path bench/Cargo.toml --bin speed -- docs/performance.svg

profile: lib
	@bench/profile/run $(TEXTURE)
