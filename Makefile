# `make help` lists the targets, from the lines with ## above them, under those with #= above.

PREFIX ?= /usr/local
BINDIR ?= $(PREFIX)/bin
DATADIR ?= $(PREFIX)/share
MANDIR ?= $(DATADIR)/man
DOCDIR ?= $(DATADIR)/doc/unifdef
BASHDIR ?= $(DATADIR)/bash-completion/completions
ZSHDIR ?= $(DATADIR)/zsh/site-functions
FISHDIR ?= $(DATADIR)/fish/vendor_completions.d
LIBDIR ?= $(PREFIX)/lib
INCLUDEDIR ?= $(PREFIX)/include
PKGCONFIGDIR ?= $(LIBDIR)/pkgconfig
PYTHONDIR ?= $(shell packaging/pythondir.sh '$(PREFIX)')
INSTALL ?= install
LDCONFIG ?= /sbin/ldconfig

# Rattle's command: the one on PATH, or `make RT=FILE`. Recipes run it in other directories.
RT ?= rt
override RT := $(if $(findstring /,$(RT)),$(shell realpath -ms -- '$(RT)'),$(RT))

# Python leaves nothing next to its files.
export PYTHONDONTWRITEBYTECODE = 1

# Recipes name make by MAKE_COMMAND: make -n runs each line that names it by MAKE.
TRIED = RT='$(RT)' MAKE='$(MAKE_COMMAND)'

CRATE := crates/unifdef_cli
CRATE_TREE := crates/unifdef_tree_cli
TABLE := crates/test_memory/out/test_memory
SOURCES := crates.txt HANDLES \
	$(shell find crates -name out -prune -o \( -name '*.rt' -o -name '*.antt' \) -print)
# The module for Python, and the page that is installed, which links to itself alone.
MODULE := $(addprefix lib/python/unifdef/,__init__.py __main__.py _library.py py.typed)
PAGES := docs/PROVED.md

.DELETE_ON_ERROR:
# tools/prove.py uses all processors by itself. Under -j, two of them would need twice the memory.
.NOTPARALLEL:
# No file has the name of a target, but for the programs and what is in a directory.
.PHONY: $(filter-out unifdef unifdef-tree,$(shell sed -n 's/^\([a-z-]*\):.*/\1/p' Makefile))

#= To use it

## proves the crates side by side, and builds ./unifdef
all: unifdef

HELP = /^\#= / { print end substr($$0, 4) ":"; end = "\n" } \
	/^\#\# / { text[n++] = substr($$0, 4); next } \
	n && /^[a-z-]+:/ { \
	  sub(/:.*/, ""); sub(/^all$$/, ""); \
	  for (i = 0; i < n; i++) printf "  %-23s%s\n", i ? "" : "make " $$0, text[i]; \
	  n = 0 \
	}

## prints this list
help:
	@awk '$(HELP)' Makefile

# Says what isn't there. In a copy without times, what is built may be older than its sources.
NO_KIT = Rattle's command $(RT) is not there: put it on PATH, or run make RT=FILE
OLD_COPY = a copy of a built directory needs none if it keeps times (cp -a), nor does \
	make -o unifdef -o unifdef-tree install
READ_ONLY = $(CURDIR) cannot be written: build in a copy of it
FAIL = { printf 'make: %s\n' $(1) >&2; exit 1; }
NEED_KIT = command -v '$(RT)' > /dev/null || $(call FAIL,"$(NO_KIT)" "$(OLD_COPY)"); \
	[ -w . ] || $(call FAIL,"$(READ_ONLY)")

kit:
	@$(NEED_KIT)

# If a program is up to date, nothing here needs the kit. So a built copy installs without it.
PROVE = @$(NEED_KIT); RT='$(RT)' tools/prove.py

unifdef: $(SOURCES)
	$(PROVE)
	cp $(CRATE)/out/unifdef_cli $@

## proves and builds ./unifdef-tree
unifdef-tree: $(SOURCES)
	$(PROVE) unifdef_tree_cli
	cp $(CRATE_TREE)/out/unifdef_tree_cli $@

# The processor is no other target's.
CPU = x86-64-v3
## proves and builds ./unifdef-native, for AVX2 or CPU=..
native: export UNIFDEF_CPU = $(CPU)
native: $(SOURCES)
	$(PROVE)
	cp $(CRATE)/out/unifdef_cli unifdef-native

# The library for C. The kit, of which `rt doc` prints a page, has C functions that allocate memory.
## proves and builds lib/libunifdef.a and lib/libunifdef.so
lib: lib/libunifdef.a

lib/libunifdef.a: $(SOURCES) lib/build.sh lib/unifdef.map CHANGELOG.md
	$(PROVE) unifdef_c
	lib/build.sh crates/unifdef_c/out/libunifdef_c.a "$$(dirname "$$($(RT) doc)")/c/liblibc_c.a"

# into MODE DIRECTORY FILES: installs files into a directory.
into = $(INSTALL) -d "$(DESTDIR)$(2)" && $(INSTALL) -m $(1) $(3) "$(DESTDIR)$(2)"
COMPLETIONS := packaging/completions

## installs all but the library under DESTDIR and PREFIX
install: unifdef unifdef-tree
	$(call into,755,$(BINDIR),unifdef unifdef-tree packaging/unifdef2)
	$(INSTALL) -d "$(DESTDIR)$(LIBDIR)/unifdef2"
	ln -sfr "$(DESTDIR)$(BINDIR)/unifdef2" "$(DESTDIR)$(LIBDIR)/unifdef2/unifdef"
	$(call into,644,$(MANDIR)/man1,docs/unifdef.1 docs/unifdef-tree.1 docs/unifdef2.1)
	$(call into,644,$(DOCDIR),$(PAGES) LICENSE)
	for name in unifdef unifdef-tree unifdef2; do \
	  $(INSTALL) -Dm 644 $(COMPLETIONS)/unifdef.bash "$(DESTDIR)$(BASHDIR)/$$name" && \
	  $(INSTALL) -Dm 644 $(COMPLETIONS)/_unifdef "$(DESTDIR)$(ZSHDIR)/_$$name" && \
	  $(INSTALL) -Dm 644 $(COMPLETIONS)/unifdef.fish "$(DESTDIR)$(FISHDIR)/$$name.fish" || exit; \
	done
	@test -n "$(DESTDIR)" || packaging/warn.sh "$(BINDIR)"

# gone DIRECTORY: removes a directory if nothing is in it.
gone = [ ! -d "$(DESTDIR)$(1)" ] || rmdir "$(DESTDIR)$(1)" 2> /dev/null || true
# rm DIRECTORY FILES: removes files of a directory.
rm = rm -f $(foreach file,$(2),"$(DESTDIR)$(1)/$(file)")

## removes what make install installed
uninstall:
	$(call rm,$(BINDIR),unifdef unifdef-tree unifdef2)
	$(call rm,$(MANDIR)/man1,unifdef.1 unifdef-tree.1 unifdef2.1)
	$(call rm,$(LIBDIR)/unifdef2,unifdef)
	$(call gone,$(LIBDIR)/unifdef2)
	$(call rm,$(DOCDIR),$(notdir $(PAGES)) LICENSE)
	$(call gone,$(DOCDIR))
	$(call rm,$(BASHDIR),unifdef unifdef-tree unifdef2)
	$(call rm,$(ZSHDIR),_unifdef _unifdef-tree _unifdef2)
	$(call rm,$(FISHDIR),unifdef.fish unifdef-tree.fish unifdef2.fish)

# Only root, and only without DESTDIR, refreshes the list of the machine's libraries.
REFRESH = [ -n "$(DESTDIR)" ] || [ "$$(id -u)" -ne 0 ] || [ ! -x "$(LDCONFIG)" ] || "$(LDCONFIG)"
MAJOR = $(shell packaging/version.sh | sed 's/\..*//')

## installs the library, unifdef(3) and the Python module;
## runs ldconfig if it is root and DESTDIR is empty
install-lib: lib
	@$(call into,644,$(LIBDIR),lib/libunifdef.a lib/libunifdef.so.$(MAJOR))
	@ln -sf libunifdef.so.$(MAJOR) "$(DESTDIR)$(LIBDIR)/libunifdef.so"
	@$(call into,644,$(INCLUDEDIR),lib/unifdef.h)
	@$(call into,644,$(MANDIR)/man3,docs/unifdef.3)
	@$(call into,644,$(PYTHONDIR)/unifdef,$(MODULE))
	@$(INSTALL) -d "$(DESTDIR)$(PKGCONFIGDIR)"
	@packaging/pkgconfig.sh "$(PREFIX)" "$(LIBDIR)" "$(INCLUDEDIR)" \
	  > "$(DESTDIR)$(PKGCONFIGDIR)/unifdef.pc" && chmod 644 "$(DESTDIR)$(PKGCONFIGDIR)/unifdef.pc"
	@$(REFRESH)

## removes what make install-lib installed
uninstall-lib:
	@[ "$$(readlink "$(DESTDIR)$(LIBDIR)/libunifdef.so")" != "libunifdef.so.$(MAJOR)" ] || \
	  $(call rm,$(LIBDIR),libunifdef.so)
	$(call rm,$(LIBDIR),libunifdef.so.$(MAJOR) libunifdef.a)
	$(call rm,$(PKGCONFIGDIR),unifdef.pc)
	$(call rm,$(INCLUDEDIR),unifdef.h)
	$(call rm,$(MANDIR)/man3,unifdef.3)
	$(call rm,$(PYTHONDIR)/unifdef,$(notdir $(MODULE)))
	rm -rf "$(DESTDIR)$(PYTHONDIR)/unifdef/__pycache__"
	$(call gone,$(PYTHONDIR)/unifdef)
	@$(REFRESH)

## makes the Debian packages, by debhelper
deb: unifdef unifdef-tree lib
	@dpkg-checkbuilddeps -I
	@DEBDIR=. debian/rules clean binary
	@debian/rules clean

## removes what was built
clean:
	rm -f unifdef unifdef-tree unifdef-native unifdef-*.tar.gz *.deb lib/libunifdef.* gate.log
	rm -rf crates/*/out .prove-* .gate-* .edits-* release
	rm -rf lib/python/build lib/python/unifdef.egg-info

#= To develop it

# The programs without a proof. They aren't for use: ./unifdef and ./unifdef-tree are.
crates/%/out/unproved: $(filter-out %.antt,$(SOURCES))
	@$(NEED_KIT)
	@echo 'make: builds the program without a proof and optimization, in half a minute' >&2
	@RT='$(RT)' tools/unproved.sh $* $@

# Status 1 says that the output differs, so it doesn't fail the recipe.
RUN_UNPROVED = @status=0; $< $(ARGS) || status=$$?; \
	echo "make: status $$status, and nothing is proved" >&2; \
	[ $$status -le 1 ]

## builds the program without a proof, in half a minute,
## and runs it: make try ARGS='-DA' < in.c
try: $(CRATE)/out/unproved
	$(RUN_UNPROVED)

## the same with unifdef-tree: make try-tree ARGS='-s src'
try-tree: $(CRATE_TREE)/out/unproved
	$(RUN_UNPROVED)

## runs the case of one file, FILE=.., without a proof
case: $(CRATE)/out/unproved
	@tests/cases.py $< --case $(FILE)

## runs each case once, in a minute and without a proof
test: $(CRATE)/out/unproved
	@RT='$(RT)' tests/quick.py

## runs all cases and tests, without a proof
test-all: $(CRATE)/out/unproved
	@RT='$(RT)' tests/quick.py --all

## runs the merge gate: proofs, wrong edits, tests, stored
## runs; ANEW=1 believes no earlier gate on this machine;
## RT_JOBS=N runs N checks side by side
check: kit
	@RT='$(RT)' tools/gate.py $(if $(ANEW),--anew)

## tries wrong edits of public functions; CRATES='NAME ..'
## those of some crates, EDITS=--all further ones too
edits: edits-test
	@RT='$(RT)' tools/edits.py $(EDITS) $(CRATES)

## tries the tool that tries edits, in a minute
edits-test: kit
	@RT='$(RT)' tests/edits_control.py

AROUND := ci-test manuals cases examples differences faults lines-test tree-test clients-test \
	lib-test packages-test
## tries all around the programs, up to the first of the next
## eleven that fails; says what was skipped, and why
around:
	@$(TRIED) tools/results.py $(AROUND)

## tries what adds up the results of tests, in seconds
ci-test:
	@tests/ci_control.py

## checks version, manuals, scripts, comments and pages, and
## that each edit can be applied
manuals:
	@RT='$(RT)' tools/lint.sh

## runs ./unifdef on the cases (crates/test_runner/data)
cases: unifdef
	@tests/cases.py

## runs the examples of the pages and the manual
examples: unifdef unifdef-tree
	@tests/examples.py

## runs the cases that say what unifdef 2.10 does instead
differences: unifdef unifdef-tree
	@tests/differences.py

## runs ./unifdef with failing calls, memory and stack
faults: unifdef $(TABLE)
	@tests/faults/run.sh

# The gate leaves this program too, so that nothing is proved again after it.
$(TABLE): $(SOURCES)
	@$(NEED_KIT)
	cd crates/test_memory && $(RT) run < /dev/null > /dev/null
	touch $@

## compares the numbers of lines under -n and -b
lines-test: unifdef
	@bench/lines.py --fixed

## runs ./unifdef-tree over trees with every trap
tree-test: unifdef unifdef-tree
	@tests/tree.sh $(SUBJECTS)

## runs unifdef2 with the calls of programs that use 2.x
clients-test: unifdef
	@tests/unifdef2.sh

## tries the library from C and Python, with all cases
lib-test: lib
	@tests/library.sh

## tries installing, packages, completions and a release
packages-test: unifdef unifdef-tree
	@for part in packages packages-lib completions hooks release; do \
	  $(TRIED) tests/$$part.sh || exit; \
	done

## makes unifdef-VERSION.tar.gz of the last commit
dist:
	@packaging/dist.sh

# What a release needs is checked before anything is proved.
ready:
	@packaging/release.sh --ready

## makes the directory release with all that its page needs
release: ready unifdef unifdef-tree lib
	@$(TRIED) packaging/release.sh

## draws the pictures of README.md
pictures: unifdef
	tools/pictures.py

#= To measure it

## measures speed (bench/README.md): the next three
bench: bench-text bench-library bench-directories

## measures ./unifdef beside the released program
bench-text: unifdef
	bench/run.sh

## measures the library beside ./unifdef
bench-library: unifdef lib
	python3 bench/library.py ./unifdef lib/libunifdef.so

## measures ./unifdef-tree over copies of the headers
bench-directories: unifdef-tree
	bench/directories.sh

## compares output over trees with the released program
trees: unifdef
	bench/trees.sh

## counts the conditions of real sources that -p edits
pruned: unifdef-tree
	bench/pruned.sh

## compares what a C compiler selects before and after
selects: unifdef unifdef-tree
	bench/selects.py $(SELECTS)
	bench/selects.py --least $(SELECTS)
	bench/selects.py --programs $(PROGRAMS)

## compares the lines' numbers before and after -n and -b
lines: unifdef
	bench/lines.py $(LINE_OPTIONS)

# Each process takes ranges of cases in turn, so that none waits long for the others.
## compares the library with its reference on N hostile
## texts from SEED on, in JOBS processes; CHECKS=options
## tries what users of options may rely on
hostile: kit
	cd crates/test_runner && $(RT) run -- hostile 0 1 < /dev/null > /dev/null
	seed=$(or $(SEED),0) cases=$(or $(N),100000) jobs=$(or $(JOBS),$$(nproc)); \
	block=$$((cases / (jobs * 8) + 1)); seq $$seed $$block $$((seed + cases - 1)) | \
	  xargs -P $$jobs -I{} crates/test_runner/out/test_runner hostile {} $$block $(CHECKS)

## the same for ./unifdef on parts of N real files
fronts: unifdef
	cd crates/test_runner && $(RT) run -- reference < /dev/null > /dev/null
	python3 bench/fronts.py ./unifdef crates/test_runner/out/test_runner \
	  $(or $(FRONTS_TREE),/usr/include) $(or $(N),20000) $(or $(SEED),0)
