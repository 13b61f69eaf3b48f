# Commands of the repository; `make help` lists them.
.DEFAULT_GOAL := help
.DELETE_ON_ERROR:
.PHONY: help run test check bench before widths install uninstall fmt clean

PREFIX ?= /usr/local
archive := target/staticlib/libcoupling.a
program := target/bin/print_product
sources := crates.txt $(wildcard crates/*/src/*.rt crates/*/specs/*.antt) $(shell find crates/*/proofs -name '*.antt')
samples := target/samples/motor_to_lever.sheet target/samples/lever_to_bar.sheet

help: ## list the commands
	@sed -n 's/^\([a-z]*\): .*## /make \1	/p' $(MAKEFILE_LIST) | expand -t 16

run: $(program) $(samples) ## multiply two sample sheets by method 1 and print the product
	@printf 1 | cat - $(samples) | $(program) >target/samples/product
	@cat target/samples/product
	@tools/sheet table <target/samples/product

target/samples/%.sheet: samples/%.txt $(wildcard tools/*)
	@mkdir -p $(@D)
	@tools/sheet pack $< >$@

test: ## the gate, all proofs and all tests: ends in 'N passed, 0 failed'
	@.ci/run

check: ## prove what changed since the last check
	@rt all check

bench: $(archive) ## time operations, sheets, sheet jobs, trains and running entries beside their peers; ROUNDS=N sets the rounds
	@$(MAKE) --no-print-directory -C bench $(if $(ROUNDS),ROUNDS=$(ROUNDS))

before: $(archive) ## time reads, products and sheet jobs beside those of an earlier archive, OLD=FILE
	@$(MAKE) --no-print-directory -C bench before OLD=$(abspath $(OLD)) $(if $(ROUNDS),ROUNDS=$(ROUNDS))

widths: $(archive) ## compare how wide the ranges of the five methods are, and cells that are converted and back
	@$(MAKE) --no-print-directory -C bench widths

install: $(archive) ## install archive, headers and coupling.pc under PREFIX, /usr/local unless given
	@install -d $(DESTDIR)$(PREFIX)/include $(DESTDIR)$(PREFIX)/lib/pkgconfig
	@install -m 644 include/coupling.h include/coupling_sentences.h $(DESTDIR)$(PREFIX)/include
	@install -m 644 $(archive) $(DESTDIR)$(PREFIX)/lib
	@sed 's|@PREFIX@|$(PREFIX)|' include/coupling.pc.in >$(DESTDIR)$(PREFIX)/lib/pkgconfig/coupling.pc

uninstall: ## remove what install put under PREFIX
	@rm -f $(DESTDIR)$(PREFIX)/include/coupling.h $(DESTDIR)$(PREFIX)/include/coupling_sentences.h
	@rm -f $(DESTDIR)$(PREFIX)/lib/libcoupling.a $(DESTDIR)$(PREFIX)/lib/pkgconfig/coupling.pc

$(archive): $(sources)
	@.ci/prove 'Building the archive; what is not proved yet is proved first, which takes minutes if that is everything.' coupling_c lib
	@install -D -m 644 crates/coupling_c/out/libcoupling_c.a $@

$(program): $(sources)
	@.ci/prove 'Building the program; what is not proved yet is proved first, which takes minutes if that is everything.' print_product run </dev/null
	@install -D crates/print_product/out/print_product $@

fmt: ## format the Rattle sources
	@for crate in crates/*/; do (cd "$$crate" && rt fmt) || exit 1; done

clean: ## remove everything that was built, and what was kept of proofs
	@rm -rf target crates/*/out
