# make audit            proves and builds the program, and audits a sample archive
# make audit FILE=..    the same for an archive of yours; where the program's status isn't 0, make ends with an error
# make show             lists the records of a sample archive, or of FILE=..
# make select           copies records of one into selected.mseed or OUT=..: those of CHANNELS=.. from FROM=.. until UNTIL=..
# make repack           packs the channels of one anew, into packed.mseed or OUT=..
# make lib              the library for C, C++ and Python, in crates/mseed_c/out/lib
# make install          the program, its manual pages and completion, the tools, and what make lib built, below /usr/local or PREFIX=..
# make uninstall        removes what make install put there, and nothing else
# make test             the whole gate, then all row files of the tests, and a tenth of tests/must-fail
# make edits            tries all wrong bodies of tests/must-fail: docs/developing.md
# make tools-test       the row files of the tools beside the program: tools/README.md
# make packages         installs what some tests want besides: tests/packages.txt, by apt-get where it can be had
# make dist             an archive of the sources, which builds and tests without git
# make drawing          draws docs/architecture.svg from crates.txt, and docs/timeline.svg by tools/timeline
# make help             these lines
# make interop          what libmseed packs, packed anew and read by libmseed (wants libmseed-dev)
# make bench            the program and the library side by side with libmseed (wants libmseed-dev, valgrind, python3-numpy)
# make feed-bench       serve and fetch side by side with a pair of C programs, and what many clients cost
# make tools-bench      tools/sds, extract and fdsnws over trees, beside reading their bytes alone; tools/archive beside dd

MSEED := crates/mseed/out/mseed
FILE ?= samples/two_records.mseed
OUT ?= packed.mseed
PREFIX ?= /usr/local
VERSION := $(shell cat VERSION)
NAME := mseed-$(VERSION)
KIT = $(patsubst %/,%,$(dir $(shell rt doc)))
LIB := crates/mseed_c/out/lib
# KEEP=--keep has what is proved kept for rt check: docs/developing.md.
KEEP ?=
# The folder of packages, as this Python says.
PYTHON ?= python3
PYTHON_DIR ?= $(shell $(PYTHON) python/package_folder.py "$(PREFIX)")

.PHONY: audit bench build dist drawing edits feed-bench help install install-lib interop lib packages \
    repack select show test tools-bench tools-test uninstall

# Where the program's status isn't 0, these four print it and end with an error of make, whose own status is 2.
audit: readable build
	@$(MSEED) audit < "$$FILE"; status=$$?; echo "status $$status"; exit $$status

help:
	@sed -n 's/^# \(make .*\)/\1/p' Makefile

show: readable build
	@$(MSEED) show < "$$FILE"; status=$$?; echo "status $$status"; exit $$status

# What is selected, or packed, gets its name once it is whole.
select: OUT = selected.mseed
select: readable build
	@$(MSEED) select $${CHANNELS:+"--channels=$$CHANNELS"} $${FROM:+"--from=$$FROM"} $${UNTIL:+"--until=$$UNTIL"} \
	    < "$$FILE" > "$$OUT.part"; status=$$?; \
	if [ $$status = 0 ]; then mv "$$OUT.part" "$$OUT" && echo "Selected into $$OUT." || status=2; \
	else rm -f "$$OUT.part"; fi; \
	echo "status $$status"; exit $$status

repack: readable build
	@$(MSEED) repack < "$$FILE" > "$$OUT.part"; status=$$?; \
	if [ $$status = 0 ]; then mv "$$OUT.part" "$$OUT" && echo "Packed into $$OUT." || status=2; \
	else rm -f "$$OUT.part"; fi; \
	echo "status $$status"; exit $$status

# So that a recipe takes them as they stand, with blanks and quotes.
export FILE OUT CHANNELS FROM UNTIL

# Before anything is proved.
.PHONY: readable
readable:
	@[ -r "$$FILE" ] && [ ! -d "$$FILE" ] || { echo "FILE=$$FILE: no file that can be read" >&2; exit 2; }

# Proves every crate that the program stands on, side by side, then proves and builds the program, and runs it once: what
# isn't proved isn't built. How far it is and how long it may take is said where something has to be proved: nothing was
# proved yet, or something isn't what was proved, by checksums of the sources, the toolchain's version and the program.
build:
	@python3 crates/prove.py $(KEEP) mseed run -- audit
	@echo 'Proved and built.'

# The archive holds the toolchain's part of the C library too, so that a program links with one file. Of the shared
# library only the calls that include/mseed.h declares are seen.
lib:
	@python3 crates/prove.py $(KEEP) mseed_c lib
	@rm -rf $(LIB) && install -d $(LIB)
	@printf '%s\n' 'create $(LIB)/libmseed_c.a' 'addlib crates/mseed_c/out/libmseed_c.a' \
	    'addlib $(KIT)/c/liblibc_c.a' save end | ar -M
	@printf '%s\n' '{ global: mseed_*; local: *; };' > $(LIB)/exports.map
	@$(CC) -shared -o $(LIB)/libmseed_c.so -Wl,-soname,libmseed_c.so -Wl,--version-script=$(LIB)/exports.map \
	    -Wl,--whole-archive $(LIB)/libmseed_c.a -Wl,--no-whole-archive
	@rm -f $(LIB)/exports.map
	@sed 's,@PREFIX@,$(PREFIX),; s,@VERSION@,$(VERSION),' include/mseed.pc.in > $(LIB)/mseed.pc
	@echo 'Proved and built: $(LIB)/libmseed_c.a and libmseed_c.so.'

# Where nothing was built yet, it is built first. What make lib didn't build is left out.
install:
	@[ -x $(MSEED) ] || $(MAKE) --no-print-directory build
	@$(PYTHON) install.py program "$(MSEED)" --prefix "$(PREFIX)" --destdir "$(DESTDIR)"
	@[ ! -e $(LIB)/libmseed_c.so ] || $(MAKE) --no-print-directory install-lib

install-lib:
	@[ -e $(LIB)/libmseed_c.so ] || $(MAKE) --no-print-directory lib
	@$(PYTHON) install.py library "$(LIB)" --prefix "$(PREFIX)" --destdir "$(DESTDIR)" --python-dir "$(PYTHON_DIR)"

uninstall:
	@$(PYTHON) install.py uninstall --prefix "$(PREFIX)" --destdir "$(DESTDIR)"

# Of a clone, what is committed; else of this folder all but what was made.
dist:
	@set -e; if [ -e .git ]; then git archive --prefix=$(NAME)/ --output=$(NAME).tar HEAD; else \
	    tar --create --file=$(NAME).tar --sort=name --owner=0 --group=0 --transform='s,^\.,$(NAME),' \
	        --exclude=out --exclude=BUILD.bazel --exclude=__pycache__ --exclude='*.log' \
	        --exclude='$(NAME).tar*' --exclude=./packed.mseed .; \
	fi
	@gzip --best --no-name --force $(NAME).tar
	@echo '$(NAME).tar.gz'

drawing:
	@python3 docs/architecture.py
	@python3 docs/timeline.py

test:
	@tests/run.py --gate

edits:
	@tests/edits.py

tools-test:
	@tests/run.py $(patsubst tests/rows/%.py,%,$(wildcard tests/rows/tools_*.py))

# Where one of them can't be had, the others are installed all the same, and what wants it is skipped.
packages:
	@tests/packages.py

interop: build
	@tests/run.py interop interop_stretches library_interop

bench: build lib
	@python3 bench/bench.py $(MSEED) --write
	@python3 bench/library.py --write
	@python3 bench/reading.py --write
	@python3 bench/parts.py $(MSEED) --write

feed-bench: build
	@python3 bench/feed.py $(MSEED) --write
	@python3 bench/feed_live.py $(MSEED) --write

tools-bench: build
	@python3 bench/tools.py $(MSEED) --write
	@python3 bench/archive.py $(MSEED) --write
	@python3 bench/extracting.py $(MSEED) --write
