# The front door of Eskihrum. `make help` lists what can be asked for; PREFIX and DESTDIR say where to
# install, DIST where a release goes.
PREFIX ?= /usr/local
DESTDIR ?=
GATE ?= target/gate.log
DIST ?= target/dist

.DEFAULT_GOAL := build
.PHONY: build check quick man install dist help

build: ## prove and build the two programs and the archive for C and Rust (some minutes the first time)
	tools/build.sh printer desk archive

check: ## the gate, with a record for `make dist`; printer and archive are there afterwards
	tools/gate.sh

quick: ## the checks that take a minute or two once all is proved
	.ci/run quick

man: ## write the manual page anew from the table of verbs
	tools/manual.sh >docs/plan.1

install: build ## install below $(DESTDIR)$(PREFIX): plan, printer, archive, header, pkg-config, manual page
	tools/install.sh "$(DESTDIR)$(PREFIX)"

dist: build ## a release below $(DIST) that runs without the toolchain; needs the record of `make check`
	tools/dist.sh "$(GATE)" "$(DIST)"

help: ## this list
	@awk -F ':.*## ' '/^[a-z]+:.*## / { printf "make %-10s%s\n", $$1, $$2 }' Makefile
