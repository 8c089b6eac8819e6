CC = gcc
CFLAGS = -std=c11 -O2 -Wall -Wextra -Werror -Iinclude -Ibench
ARCHIVE = target/staticlib/libkiosk.a
VERSION := $(shell cat VERSION)
# What the archive is made of; a change makes it anew.
SOURCES = crates.txt $(shell find crates -name '*.rt' -o -name '*.antt')
DIFFERENTIAL = $(wildcard tests/differential/*.c) bench/interpreter.c

# The targets for people, each with the settings that may stand beside it. Anything else is refused there: make would run
# `make run FILE` and `make run image=FILE` on the default image, and take away what stands in the default PREFIX, as if that had
# been asked for.
settings_run = IMAGE
settings_loadcheck = IMAGE LENGTH
settings_explain = IMAGE LENGTH
settings_show = IMAGE LENGTH
settings_kiosk = IMAGE LENGTH FRAMES
settings_table = TABLE
settings_log = LOG
settings_install = PREFIX DESTDIR
settings_uninstall = PREFIX DESTDIR
GUARDED = $(patsubst settings_%,%,$(filter settings_%,$(.VARIABLES)))
CHOSEN := $(filter $(GUARDED),$(MAKECMDGOALS))
ifneq ($(CHOSEN),)
ALLOWED := $(foreach target,$(CHOSEN),$(settings_$(target)))
STRAY := $(filter-out $(CHOSEN),$(MAKECMDGOALS))
GIVEN := $(foreach name,$(.VARIABLES),$(if $(filter command line,$(origin $(name))),$(name)))
UNKNOWN := $(filter-out $(ALLOWED),$(GIVEN))
ifneq ($(STRAY),)
$(error '$(firstword $(STRAY))' is not understood beside $(CHOSEN): a file is named as in 'make run IMAGE=FILE' or './gpu run FILE')
endif
ifneq ($(UNKNOWN),)
$(error '$(firstword $(UNKNOWN))' is no setting of $(CHOSEN): there it may be $(ALLOWED), in capitals)
endif
endif

# Settings come from the command line or the environment, and reach a command through its environment as they were written: no
# character of theirs means anything to make or to the shell.
IMAGE ?= examples/card.words
TABLE ?= docs/vectors/base.csv
PREFIX ?= /usr/local
override IMAGE := $(value IMAGE)
override LENGTH := $(value LENGTH)
override FRAMES := $(value FRAMES)
override TABLE := $(value TABLE)
override LOG := $(value LOG)
override PREFIX := $(value PREFIX)
override DESTDIR := $(value DESTDIR)
export IMAGE LENGTH FRAMES TABLE LOG
install uninstall: export PREFIX := $(PREFIX)
install uninstall: export DESTDIR := $(DESTDIR)
length = $(if $(LENGTH),--length "$$LENGTH")

.PHONY: help $(GUARDED) rows test tests programs pages released differential loading bench links instructions check map release

help: ## list these commands
	@grep -E '^[a-z]+:.*##' Makefile | sed 's/:.*## /\t/' | expand -t 14
	@echo "./gpu help lists the verbs of the command that they call"

run: ## run an image and print its card: IMAGE=FILE (default: paper 01's card)
	@./gpu run "$$IMAGE"

loadcheck: ## check an image before it runs: IMAGE=FILE, and LENGTH=BYTES of code where the file does not state it
	@./gpu check "$$IMAGE" $(length)

explain: ## run an image and explain its card in plain words: IMAGE=FILE; with LENGTH=BYTES check it instead
	@./gpu explain "$$IMAGE" $(length)

show: ## show an image word by word: IMAGE=FILE
	@./gpu show "$$IMAGE" $(length)

kiosk: ## run an image frame by frame: IMAGE=FILE, checked first where its length is known; FRAMES=N
	@./gpu kiosk "$$IMAGE" $(length) $(if $(FRAMES),--frames "$$FRAMES")

table: ## run each instruction of a table: TABLE=FILE.csv (default: docs/vectors/base.csv); draws target/table.html
	@./gpu table "$$TABLE" --quiet --page target/table.html

log: ## sum up a day of a firing log, and draw it: LOG=FILE
	@./gpu log "$$LOG"

rows: ## run the published rows and the further vectors through the compiled functions
	@scripts/prove check published vectors
	@target/bin/published
	@target/bin/vectors

test: ## the whole gate: proofs, must-fail edits, programs, tests
	@.ci/run

tests: ## build the programs and the archive, and run the tests over them
	@scripts/prove check run explain loadcheck
	@$(MAKE) --no-print-directory $(ARCHIVE)
	@$(MAKE) --no-print-directory -j2 programs pages released differential loading

programs:
	@tests/programs

pages: target/kiosk target/libgpu.so.0
	@tests/run

released: target/kiosk target/libgpu.so.0
	@python3 tests/release.py
	@python3 tests/gpu_command.py

differential loading: %: target/%
	@target/$@

bench: target/bench target/checkbench ## time a run beside a plain C interpreter, and the loading check: about a minute
	@target/bench
	@target/checkbench

links: $(ARCHIVE) ## time a run beside the C interpreter over twelve links of the two: half a minute
	@bench/links

instructions: target/bench ## count the instructions of a step, with valgrind
	@bench/instructions

check: ## prove what has changed, and run the programs
	@rt all test

$(ARCHIVE): $(SOURCES)
	@scripts/prove staticlib kiosk
	@touch $@

map: ## draw docs/map.svg from crates.txt
	@scripts/map

release: ## make the release that runs without prover and compiler: a folder and an archive in target/release
	@scripts/release

install: release ## install the release: PREFIX=FOLDER (default: /usr/local)
	@scripts/install target/release/gpu-$(VERSION)

uninstall: ## remove what was installed: PREFIX=FOLDER
	@scripts/install --remove

# The archive's code is position independent; -z text makes the linker refuse any that is not.
target/libgpu.so.0: $(ARCHIVE)
	@$(CC) -shared -Wl,-soname,libgpu.so.0 -Wl,-z,defs -Wl,-z,text -Wl,--whole-archive $(ARCHIVE) -Wl,--no-whole-archive -o $@

target/differential: $(DIFFERENTIAL) $(ARCHIVE)
	$(CC) $(CFLAGS) $(DIFFERENTIAL) $(ARCHIVE) -o $@

target/loading: $(wildcard tests/loading/*.[ch]) $(ARCHIVE)
	$(CC) $(CFLAGS) -Itests/loading tests/loading/*.c $(ARCHIVE) -o $@

target/bench: bench/bench.c bench/interpreter.c $(ARCHIVE)
	$(CC) $(CFLAGS) bench/bench.c bench/interpreter.c $(ARCHIVE) -o $@

target/checkbench: bench/check.c $(ARCHIVE)
	$(CC) $(CFLAGS) bench/check.c $(ARCHIVE) -o $@

target/kiosk: examples/kiosk.c $(wildcard examples/kiosk/*.h) $(ARCHIVE)
	$(CC) $(CFLAGS) examples/kiosk.c $(ARCHIVE) -o $@
