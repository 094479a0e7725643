# `make help` lists the targets.
SHELL := /bin/bash
.SHELLFLAGS := -euo pipefail -c
.DEFAULT_GOAL := help
.NOTPARALLEL:

# cargo reads compare/.cargo/config.toml only from there
COMPARE := cd compare && cargo run --quiet --release --offline --
CLIPPY := cargo clippy --quiet --all-targets

# the crates under `vayemuku`
CRATES := $(shell sed -n 's/^vayemuku staticlib: *\([^\#]*\).*/\1/p' crates.txt)

LIBRARY := target/staticlib/libvayemuku.a

# a sum over all that the library is proved from: the toolchain, and its crates' code, definitions and proofs
SOURCES := $(wildcard $(foreach crate,$(CRATES) vayemuku,$(addprefix crates/$(crate)/,src specs proofs)))
SUM = { rt version && cat crates.txt && find $(SOURCES) -type f -print0 | sort -z | xargs -0 sha256sum; } | sha256sum

# stops where a command is not on the PATH
need = @command -v $(1) >/dev/null || { echo "make: $(2) is not on the PATH" >&2; exit 1; }

.PHONY: help test lint lib host run mutants compare record bench prepare layout proved-lib
.PHONY: need-rt need-cargo need-python3
help: ## this list
	@grep -E '^[a-z]+:.*## ' $(MAKEFILE_LIST) | sed -E 's/^([a-z]+):.*## /\1\t/' | expand -t 12

test: need-rt need-cargo ## the gate: documents, layout, host's tests, then rt ci; ends in 'N passed, 0 failed'
	docs/check
	$(MAKE) --no-print-directory layout
	$(MAKE) --no-print-directory host
	.ci/prove

lint: layout prepare lib ## line widths and words of all sources, the Rust's layout, what contracts speak of, and clippy
	cd host && $(CLIPPY) -- -D warnings
	cd compare && $(CLIPPY) --offline -- -D warnings

# the part of lint that neither builds nor proves anything; `rt ci` refuses Rattle that `rt fmt` would lay out otherwise
layout: need-cargo
	cd host && cargo fmt --all --check
	cd compare && cargo fmt --check
	.ci/lint
	.ci/contracts --self-test
	.ci/contracts

lib: need-rt ## target/staticlib/libvayemuku.a, to link with include/vayemuku.h; proved only where something has changed
	@[ -f $(LIBRARY) ] && [ "$$($(SUM))" = "$$(cat $(LIBRARY).sum 2>&1)" ] || $(MAKE) --no-print-directory proved-lib
	@echo "$(LIBRARY), declared by include/vayemuku.h"

proved-lib:
	@mkdir -p $(dir $(LIBRARY)) && rm -f $(LIBRARY).sum && $(SUM) >$(LIBRARY).proving
	cd crates/vayemuku && rt lib
	@cp crates/vayemuku/out/libvayemuku.a $(LIBRARY)
	@mv $(LIBRARY).proving $(LIBRARY).sum

host: need-cargo lib ## clippy, tests and documents of host/, and what README.md shows
	cd host && $(CLIPPY) -- -D warnings
	cd host && cargo test --quiet
	cd host && RUSTDOCFLAGS='-D warnings' cargo doc --quiet --no-deps
	cd host && cargo build --quiet --release
	host/readme-check

run: need-cargo lib ## two sample batches, made and rescored: one succeeds, and one is refused
	cd host && cargo build --quiet --release
	@host/run-sample

mutants: need-python3 ## wrong programs, which the prover must refuse; some hours
	mutants/run

prepare: need-cargo ## what compare and bench need: Debian's packaged crates, and sage's files, checked
	compare/prepare

compare: prepare lib ## the port beside sage's unchanged Rust and Rust's own operators, by bits; fails on one mismatch
	$(COMPARE) smoke
	$(COMPARE) differences
	$(COMPARE) floats
	$(COMPARE) counting
	$(COMPARE) fit
	$(COMPARE) kde
	$(COMPARE) fdr
	cd host && cargo build --quiet --release
	host/run-sample >/dev/null
	$(COMPARE) sample ../target/sample/{good,good.list,refused}.tsv

record: prepare lib ## the recorded answers of sage's Rust, made again: crates/replay_*/data
	$(COMPARE) record ../crates

bench: prepare lib ## the port and the Rust timed in one driver, with ratios
	$(COMPARE) bench floats
	$(COMPARE) bench counting
	$(COMPARE) bench fit
	$(COMPARE) bench kde
	$(COMPARE) bench fdr

need-rt:
	$(call need,rt,the Rattle toolchain's command rt)

need-cargo:
	$(call need,cargo,cargo)

need-python3:
	$(call need,python3,python3)
