# Proves, builds, runs, tests and installs the program. It needs bash, awk and the toolchain's command `rt`; `make desk`
# needs Python 3 too.
RT ?= rt
PREFIX ?= $(HOME)/.local
DESTDIR ?=
export PREFIX DESTDIR

SOURCES := crates.txt HANDLES $(shell find crates -regex 'crates/[^/]*/out' -prune -o -type f -print)

.PHONY: run test demo bench install uninstall dist deb desk

# The main job: a chapter that two authors wrote apart, as a stream, and their two files in a folder of their own.
run: bin/manuscript
	bin/manuscript show < samples/two_authors.frames
	folder=$$(mktemp -d) && cd "$$folder" && \
		PATH="$(CURDIR)/bin:$$PATH" sh -ev "$(CURDIR)/samples/two_authors.sh" && rm -r "$$folder"

# The program is proved as it is built. Until it is, a small second program shows the sample, where there is Python 3.
bin/manuscript: $(SOURCES)
	RT="$(RT)" .ci/build

# The scripts of tests/ that try the built program. desk.sh tries the page, and says so where `make desk` has made none
# or there is no Node or no browser.
SCRIPTS := show rows orders lines files reasons drafts histories exchange kill relay calls slow large samples pasted promises release desk

# All tests: the toolchain's gate, which is every proof, every mutation that must be refused, every test of the crates
# and every program, and then the scripts. They try the program that the gate builds: an older one is removed first.
test:
	rm -f crates/manuscript/out/manuscript
	$(RT) ci
	install -D -m 755 crates/manuscript/out/manuscript bin/manuscript
	set -e; for script in $(SCRIPTS); do tests/$$script.sh; done

# Two authors who write apart, exchange by streams, files and a relay, and lose a machine in the middle of an edit.
demo: bin/manuscript
	examples/demo.sh

# How long the commands take on this machine.
bench: bin/manuscript
	examples/bench.sh

COMPLETIONS := bin/completions/manuscript bin/completions/manuscript.fish

install: bin/manuscript $(COMPLETIONS)
	release/install.sh "$$DESTDIR$$PREFIX"

uninstall:
	release/install.sh "$$DESTDIR$$PREFIX" remove

# What shells offer behind the name of the program.
$(COMPLETIONS): release/completions.sh crates/manuscript/src/usage.rt
	mkdir -p bin/completions
	release/completions.sh $(if $(filter %.fish,$@),fish,bash) > $@

# An archive for those who have no toolchain, and a Debian package, where there is dpkg-deb. The same sources make the
# same bytes.
VERSION := $(shell sed -n 's/^## \([^ ]*\).*/\1/p' CHANGELOG.md | head -n 1)

dist: bin/manuscript $(COMPLETIONS)
	release/archive.sh $(VERSION)

deb: bin/manuscript $(COMPLETIONS)
	release/deb.sh $(VERSION)

# One HTML file, for those who have a browser and no terminal: a page, and in it the program for WebAssembly. The LLVM
# module of the program is kept in bin/, so that the page can be changed without proving the program again.
desk: dist/desk.html

bin/manuscript.bc: $(SOURCES) desk/module.sh desk/rattle.sh desk/clang.sh
	RT="$(RT)" desk/module.sh $@

dist/manuscript.wasm: bin/manuscript.bc desk/build.sh desk/heap.c desk/imports.txt
	RT="$(RT)" desk/build.sh $< $@

dist/desk.html: dist/manuscript.wasm $(shell find desk -type f ! -name '*.sh' ! -name '*.md' ! -name heap.c)
	desk/pack.py $< $@
