# What people do here, for GNU make and the tools of a Debian system. CONTRIBUTING.md has the rest.
#
#   make                      proves and builds both programs
#   make try                  plays a script, unproved, in a minute
#   make test                 the test command: proves and tests everything
#   make install PREFIX=DIR   installs programs, manual pages and completions; DESTDIR is put before PREFIX
#   make dist                 packs them, with documents and examples, as out/auditorium-VERSION.tar.gz

RT = rt
PREFIX = /usr/local
DESTDIR =

CLI = crates/auditorium_cli
VIEW = crates/auditorium_view
AUDITORIUM = $(CLI)/out/auditorium_cli
AUDITORIUM_VIEW = $(VIEW)/out/auditorium_view

VERSION := $(shell sed -n 's/^const VERSION: &str = "\(.*\)";$$/\1/p' crates/command_hints/src/commands.rt)
RELEASE := auditorium-$(VERSION)
SOURCE_DATE_EPOCH ?= $(shell git log -1 --format=%ct)

# Puts the programs and what belongs to them below the folder $(1).
define put
install -D -m 755 $(AUDITORIUM) "$(1)/bin/auditorium"
install -D -m 755 $(AUDITORIUM_VIEW) "$(1)/bin/auditorium_view"
install -D -m 644 docs/auditorium.1 "$(1)/share/man/man1/auditorium.1"
install -D -m 644 docs/auditorium_view.1 "$(1)/share/man/man1/auditorium_view.1"
install -D -m 644 out/auditorium.bash "$(1)/share/bash-completion/completions/auditorium"
install -D -m 644 out/auditorium.bash "$(1)/share/bash-completion/completions/auditorium_view"
install -D -m 644 out/auditorium.zsh "$(1)/share/zsh/site-functions/_auditorium"
endef

.PHONY: build completions dist install test try
.NOTPARALLEL:

build:
	cd $(CLI) && $(RT) run -- make 1 >/dev/null
	cd $(VIEW) && $(RT) run -- data/three.roster standard data/three.sv.log >/dev/null

try:
	cd $(CLI) && $(RT) try -- play data/three.script three

test:
	.ci/run

completions:
	mkdir -p out
	python3 tools/completions.py bash >out/auditorium.bash
	python3 tools/completions.py zsh >out/auditorium.zsh

install: build completions
	$(call put,$(DESTDIR)$(PREFIX))

dist: build completions
	rm -rf "out/$(RELEASE)"
	$(call put,out/$(RELEASE))
	git ls-files README.md CHANGELOG.md docs examples $(CLI)/data | xargs cp --parents -t "out/$(RELEASE)"
	cd "out/$(RELEASE)" && find . -type f ! -name SHA256SUMS | LC_ALL=C sort | xargs sha256sum >SHA256SUMS
	LC_ALL=C tar --create --directory out --format=gnu --sort=name --mtime="@$(SOURCE_DATE_EPOCH)" \
	    --owner=0 --group=0 --numeric-owner --mode=u+rw,go-w,a+rX "$(RELEASE)" >"out/$(RELEASE).tar"
	gzip -n -9 -f "out/$(RELEASE).tar"
	cd out && sha256sum "$(RELEASE).tar.gz"
