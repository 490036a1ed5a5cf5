# What can be made here; `make` alone lists it. Proving is the work of rt; .ci/run is the gate: this file calls them.
SHELL := bash
.SHELLFLAGS := -euo pipefail -c
.DEFAULT_GOAL := help
.PHONY: help demo test archive shared install dist

version := $(shell sed -n 's/^version = "\(.*\)"$$/\1/p' bindings/rust/Cargo.toml)
name := finialbasil-$(version)
folder := target/dist/$(name)
header := bindings/c/finialbasil.h
archive := target/staticlib/libfinialbasil.a
soname := libfinialbasil.so.$(firstword $(subst ., ,$(version)))
shared := target/shared/libfinialbasil.so.$(version)
documents := docs/SPECIFICATION.md docs/PROMISES.md docs/TRUST.md

# Where `make install` puts its files, all of them below DESTDIR if that is set.
PREFIX ?= /usr/local
docdir ?= $(PREFIX)/share/doc/finialbasil

# Proves and builds crates/$(2) by `rt $(1)`. Shown is what rt says of each crate; all that it prints is in target/$(3).
proved = (cd crates/$(2) && rt $(1) </dev/null) 2>&1 | tee target/$(3) | sed -un '/^rt: /p' || \
    { tail -n 20 target/$(3); exit 1; }

help: ## this list
	@sed -n 's/^\([a-z]*\): .*## \(.*\)/  make \1\t\2/p' $(MAKEFILE_LIST) | expand -t 16

demo: ## prove and build pick, run it on examples/motors and show which motors are kept
	@mkdir -p target
	@echo "Proving pick and what it rests on: some minutes from a fresh checkout, seconds after that."
	@$(call proved,run,pick,pick.out)
	@install -D crates/pick/out/pick target/bin/pick
	@examples/motors/show

test: ## prove everything from nothing, try the edits that must fail, run all tests (.ci/run)
	@.ci/run

# For every x86-64 processor: rt's own default asks for a newer one.
archive: ## prove the library and write target/staticlib/libfinialbasil.a
	@mkdir -p target
	@$(call proved,lib --cpu x86-64,finialbasil,archive.out)
	@install -D -m 644 crates/finialbasil/out/libfinialbasil.a $(archive)

# The names that the header declares are exported and no others. It needs the C library alone, which `-z defs` sees to.
shared: archive ## link the archive as target/shared/libfinialbasil.so.VERSION
	@rm -rf target/shared
	@mkdir -p target/shared
	@sed -n 's/^fnb_[a-z_]* \(fnb_[a-z_]*\)(.*/\1;/p' $(header) | \
	    { echo '{ global:'; cat; echo 'local: *; };'; } >target/shared/exported
	@$(CC) -shared -nostartfiles -nodefaultlibs -Wl,--whole-archive $(archive) -Wl,--no-whole-archive -lc \
	    -Wl,-soname,$(soname) -Wl,--version-script=target/shared/exported -Wl,--build-id=none \
	    -Wl,-z,defs -Wl,-z,noexecstack -Wl,-z,relro -Wl,-z,now -o $(shared)

# Header, libraries, pkg-config and CMake files below the folder $(1), which can be moved as a whole.
define laid_out
@install -d "$(1)/include" "$(1)/lib/pkgconfig" "$(1)/lib/cmake/finialbasil"
@install -m 644 $(header) "$(1)/include"
@install -m 644 $(archive) $(shared) "$(1)/lib"
@ln -sfn $(notdir $(shared)) "$(1)/lib/$(soname)"
@ln -sfn $(soname) "$(1)/lib/libfinialbasil.so"
@sed 's/@VERSION@/$(version)/' bindings/c/package/finialbasil.pc | \
    install -m 644 /dev/stdin "$(1)/lib/pkgconfig/finialbasil.pc"
@sed 's/@VERSION@/$(version)/' bindings/c/package/finialbasil-config-version.cmake | \
    install -m 644 /dev/stdin "$(1)/lib/cmake/finialbasil/finialbasil-config-version.cmake"
@install -m 644 bindings/c/package/finialbasil-config.cmake "$(1)/lib/cmake/finialbasil"
endef

install: shared ## install header, libraries, pkg-config and CMake files and documents (PREFIX, DESTDIR, docdir)
	$(call laid_out,$(DESTDIR)$(PREFIX))
	@install -d "$(DESTDIR)$(docdir)"
	@install -m 644 $(documents) CHANGELOG.md bindings/c/delivery/LICENCE-NOTE "$(DESTDIR)$(docdir)"

# In the delivery the crate stands at rust/, so that is where the programs of example/ look for it.
dist: shared ## make target/dist/finialbasil-VERSION, what a buyer gets, and the same as a tar file
	@rm -rf target/dist
	$(call laid_out,$(folder))
	@install -d $(addprefix $(folder)/,doc example rust/lib)
	@install -m 644 $(documents) $(folder)/doc
	@install -m 644 CHANGELOG.md bindings/c/delivery/* $(folder)
	@cp -r bindings/c/example.c bindings/c/example.expected examples/valves $(folder)/example
	@find $(folder)/example -name Cargo.toml -exec sed -i 's|/bindings/rust"|/rust"|' {} +
	@install -m 644 $(archive) $(folder)/rust/lib
	@cp -r $(wildcard $(addprefix bindings/rust/,Cargo.toml README.md build.rs src tests examples)) $(folder)/rust
	@rt version >$(folder)/TOOLCHAIN
	@cd $(folder) && find . -type f ! -name SHA256SUMS -printf '%P\n' | LC_ALL=C sort | xargs sha256sum >SHA256SUMS
	@tar --sort=name --format=ustar --mtime=@0 --owner=0 --group=0 --numeric-owner --mode=u=rwX,go=rX \
	    -C target/dist -cf $(folder).tar $(name)
	@echo "$(folder).tar"
