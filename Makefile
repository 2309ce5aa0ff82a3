# SPDX-License-Identifier: Apache-2.0
# The usual ways into the repository. `make` proves and builds the programs, and `make bin/ddrescue` one of them, with a
# proof on each processor (`make -j2` takes two). An interrupted build resumes where it was. `make scenes` builds the
# player of scenes, and `make check` runs the gate. `make install` puts the programs that are in bin/ (or, if that has
# none, where the gate left them), their manual pages, completions of bash and zsh, and the documents for users in
# place, and `make uninstall` takes them away. Neither proves or builds anything. `make dist` and `make deb` pack what
# `make install` installs, as a tarball and as a package for Debian, and prove and build it first. With `BUILT=FOLDER`
# all take the programs from that folder as they are.
PREFIX ?= /usr/local
PROGRAMS := ddrescue ddrescuelog ddrescuepart ddrescueverify ddrescueplan ddrescueshow
# A script, which is installed as it is.
LAUNCHER := ddrescuerun
# What a user reads, besides the first part of README.md.
DOCUMENTS := LICENSE NEWS.md docs/GUIDE.md docs/RULES.md $(wildcard docs/rules/*.md docs/images/*)
SHARE := $(PREFIX)/share
MANUAL := $(SHARE)/man/man1
BASH := $(SHARE)/bash-completion/completions
ZSH := $(SHARE)/zsh/site-functions
DOC := $(SHARE)/doc/hueplane

# Without a number of its own make takes each processor, and within another make those of that one.
ifeq ($(filter -j%,$(MAKEFLAGS))$(MAKELEVEL),0)
    MAKEFLAGS += -j$(shell nproc)
endif
MAKEFLAGS += --no-builtin-rules

.PHONY: all scenes check install uninstall dist deb clean anew
# packaging/prove finds what is to be proved anew, and takes all processors: so one run of it comes after the other.
.NOTPARALLEL:

all:
	+@packaging/prove $(PROGRAMS)

scenes: bin/rescue_scenes

bin/%: anew
	+@packaging/prove $*

build/%.proved: anew
	+@packaging/prove $*

check:
	bash .ci/run

# Where the programs are: in the folder BUILT, in bin/, or, if bin/ has none of them, where the gate left them.
BIN := $(or $(BUILT),$(if $(wildcard $(PROGRAMS:%=bin/%)),bin))
FILES := $(foreach name,$(PROGRAMS),"$(or $(BIN),crates/$(name)/out)/$(name)")

install:
	@for file in $(FILES); do \
	    [ -f "$$file" ] && continue; \
	    echo "$$file is missing: run make first, or name the folder of the built programs with BUILT" >&2; \
	    exit 1; \
	done
	for file in $(FILES); do install -D "$$file" "$(DESTDIR)$(PREFIX)/bin/$${file##*/}" || exit 1; done
	install -D launcher/$(LAUNCHER) "$(DESTDIR)$(PREFIX)/bin/$(LAUNCHER)"
	for name in $(PROGRAMS) $(LAUNCHER); do \
	    install -D -m 644 man/$$name.1 "$(DESTDIR)$(MANUAL)/$$name.1" && \
	    install -D -m 644 completions/bash/$$name "$(DESTDIR)$(BASH)/$$name" && \
	    install -D -m 644 completions/zsh/_$$name "$(DESTDIR)$(ZSH)/_$$name" || exit 1; \
	done
	for name in $(DOCUMENTS); do install -D -m 644 $$name "$(DESTDIR)$(DOC)/$${name#docs/}" || exit 1; done
	sed '/^<!-- `make install`/,$$d; s|\[\([^]]*\)\](docs/HEADLINE\.md)|\1|; s|](docs/|](|' README.md \
	    > "$(DESTDIR)$(DOC)/README.md" && chmod 644 "$(DESTDIR)$(DOC)/README.md"

uninstall:
	for name in $(PROGRAMS) $(LAUNCHER); do \
	    rm -f "$(DESTDIR)$(PREFIX)/bin/$$name" "$(DESTDIR)$(MANUAL)/$$name.1" "$(DESTDIR)$(BASH)/$$name" \
	        "$(DESTDIR)$(ZSH)/_$$name"; \
	done
	rm -rf "$(DESTDIR)$(DOC)"

# The packages, in dist/. GATE is the last line of the gate's run that this commit passed, as "161 passed, 0 failed".
export BUILT GATE
dist deb:
	+packaging/make_package $@

clean:
	rm -rf bin build dist crates/*/out
