# Each target is one command, and can be typed by hand in its place.
# demo and try run a session of the program; taste proves one small crate; smoke tests in five
# minutes what no proof says; test is the merge gate, and rows, memory and client are parts of it;
# check proves what has changed; mutants tries wrong bodies where a contract has changed; soak kills
# what an archive over machines runs, soak-readers a writer beside readers; picture draws the crates;
# install puts the program, its client and their manuals in place; deb, source-package, wheel and dist
# make packages.

SESSION = examples/mail.lines
PROGRAM = crates/pk_find/out/pk_find
STORE = $(CURDIR)/demo.store
UNITS = 4096

# What the program is made of: where one has changed, what stands on it is proved again.
SOURCES = crates.txt $(wildcard crates/*/src/*.rt crates/*/specs/*.antt crates/*/proofs/*.antt \
    crates/*/proofs/*/*.antt)

# A Python that has distributed.
SHARDS = tools/shards_python.sh -W ignore

PREFIX = /usr/local
BIN = $(DESTDIR)$(PREFIX)/bin
# Where the Python packages are below PREFIX.
PYTHON_LIB = lib/rubewola
LIB = $(DESTDIR)$(PREFIX)/$(PYTHON_LIB)
MAN = $(DESTDIR)$(PREFIX)/share/man/man1
BASH_COMPLETIONS = $(DESTDIR)$(PREFIX)/share/bash-completion/completions
ZSH_COMPLETIONS = $(DESTDIR)$(PREFIX)/share/zsh/site-functions
UNITS_OF_SYSTEMD = $(DESTDIR)$(PREFIX)/share/systemd/user
# The interpreter that runs the installed client: a real one, and no version manager's shim.
PYTHON = $(shell python3 -c 'import sys; print(sys.base_prefix + "/bin/python3")')

VERSION = $(shell sed -n 's/^VERSION = "\(.*\)"/\1/p' clients/python/rubewola/commands.py)
PACKAGES = $(CURDIR)/dist

.PHONY: demo try taste smoke test seals mutants client soak soak-readers rows memory check fmt \
    picture bench install uninstall deb source-package wheel dist

# Makes a store in a file, and answers a session over a small mail archive; the program is proved and
# built first, where it isn't there or its sources have changed.
demo: $(PROGRAM)
	rm -f $(STORE)
	$(PROGRAM) create $(STORE) --units $(UNITS)
	$(PROGRAM) run $(STORE) < $(SESSION)

# Answers the same session before anything is proved.
try:
	rm -f $(STORE)
	cd crates/pk_find && rt try -- create $(STORE) --units $(UNITS)
	cd crates/pk_find && rt try -- run $(STORE) < ../../$(SESSION)

# One small crate is proved, and a wrong body of it refused.
taste:
	cd crates/pk_vbyte && rt check
	rt must-fail pk_vbyte

# What no proof says, over programs that aren't proved: seals, tools, the engine's rows, the client. It
# takes five minutes at most on four processors, and its last line says what it does not show.
smoke:
	python3 tools/smoke.py

# The seals of the mutants; the gate: every proof from nothing, each must-fail edit, each test, each
# program twice; then tests of the built program, sessions that are killed, the engine's rows, each
# request for memory refused, and the tests of the client and of tools/.
test:
	tools/test.sh

# Whether the contracts are those at which all mutants were last refused; proves nothing.
seals:
	python3 tools/seals.py

# make mutants CRATES="pk_sets pk_dict": the mutants of these crates, or of all. The prover must
# refuse each; then the crate's seal is written.
mutants:
	python3 tools/mutants.py $(CRATES)

# The tests of the Python client, over the built program; then those of archives over machines, where
# that Python has Debian's python3-distributed, with schedulers and workers on loopback.
client:
	python3 tools/run_tests.py client
	$(SHARDS) tools/run_tests.py shards

# Kills sessions, workers, nannies, the scheduler and the loader by chance until a load is whole.
soak:
	PYTHONPATH=$(CURDIR)/clients/python:$(CURDIR)/clients/python/tests \
	    RUBEWOLA_PROGRAM=$(CURDIR)/$(PROGRAM) $(SHARDS) tools/shards_soak.py

# Reads for an hour beside a writer that is killed and begun anew, and judges each answer.
soak-readers:
	python3 tools/reading_soak.py $(PROGRAM) 3600

# The engine's rows, over the built player: scripts, sweeps of failing calls, damage; and those of
# the lower layers.
rows:
	python3 tools/run_tests.py rows

# Refuses each request for memory in turn, over what `make test` built: of tests and of sessions of
# the program on a file, then of the engine's rows.
memory:
	python3 tools/refuse_memory.py
	python3 -m tests.memory

# Every crate, the lowest first, over the work that earlier checks left.
check:
	rt all check

# Lays out the files of each crate.
fmt:
	for crate in crates/*/; do (cd "$$crate" && rt fmt) || exit 1; done

# Draws the crates and what each stands on: docs/crates.svg.
picture:
	python3 tools/draw_crates.py

# Adding and finding 67 MB of English, beside SQLite FTS5; builds the program first.
bench: $(PROGRAM)
	bench/words/run.sh $(PROGRAM)

# Proves and builds the program and all that it stands on; what is proved stays, if this is broken off.
# A program that PROGRAM= names is taken as it is.
crates/pk_find/out/pk_find: $(SOURCES)
	@echo "The crates of the program are proved, the lowest first; at first this takes half an hour and"
	@echo "more on four processors. Ctrl-C keeps what is proved. make try answers before any proof."
	cd crates/pk_find && rt run -- --version
	touch $@

# make install PREFIX=~/.local: the program, the client as `rubewola` and `rubewola-shards`, the Python
# packages below lib/rubewola, compiled, the manuals, completions for bash and zsh, and a timer for
# systemd. Python finds the packages with PYTHONPATH=PREFIX/lib/rubewola.
install: $(PROGRAM)
	install -d $(BIN) $(LIB)/rubewola $(LIB)/rubewola_shards $(MAN) $(BASH_COMPLETIONS) \
	    $(ZSH_COMPLETIONS) $(UNITS_OF_SYSTEMD)
	install -m 755 $(PROGRAM) $(BIN)/pk_find
	sed -e '1s|.*|#!$(PYTHON) -SI|' -e 's|lib/rubewola|$(PYTHON_LIB)|' clients/python/entry.py \
	    > $(BIN)/rubewola
	sed 's|lib/rubewola|$(PYTHON_LIB)|' clients/python/rubewola-shards.sh > $(BIN)/rubewola-shards
	chmod 755 $(BIN)/rubewola $(BIN)/rubewola-shards
	install -m 644 clients/python/rubewola/*.py $(LIB)/rubewola
	install -m 644 clients/python/rubewola_shards/*.py $(LIB)/rubewola_shards
	$(PYTHON) -m compileall -q -s "$(DESTDIR)" $(LIB)/rubewola $(LIB)/rubewola_shards
	install -m 644 man/pk_find.1 man/rubewola.1 man/rubewola-shards.1 $(MAN)
	install -m 644 clients/completions/rubewola.bash $(BASH_COMPLETIONS)/rubewola
	install -m 644 clients/completions/_rubewola $(ZSH_COMPLETIONS)/_rubewola
	sed 's|@BIN@|$(PREFIX)/bin|' packages/rubewola-load.service \
	    > $(UNITS_OF_SYSTEMD)/rubewola-load.service
	install -m 644 packages/rubewola-load.timer $(UNITS_OF_SYSTEMD)

# Takes away what install put there.
uninstall:
	rm -f $(BIN)/pk_find $(BIN)/rubewola $(BIN)/rubewola-shards
	rm -f $(MAN)/pk_find.1 $(MAN)/rubewola.1 $(MAN)/rubewola-shards.1
	rm -f $(BASH_COMPLETIONS)/rubewola $(ZSH_COMPLETIONS)/_rubewola
	rm -f $(UNITS_OF_SYSTEMD)/rubewola-load.service $(UNITS_OF_SYSTEMD)/rubewola-load.timer
	rm -rf $(LIB)/rubewola $(LIB)/rubewola_shards
	-rmdir --ignore-fail-on-non-empty $(LIB)

# A package for Debian, in dist/, of what `make install` puts in place; the Python packages are where
# Debian's Python looks for them.
deb: $(PROGRAM)
	stage=$$(mktemp -d) && trap 'rm -rf "$$stage"' EXIT && \
	$(MAKE) --no-print-directory install DESTDIR="$$stage" PREFIX=/usr PYTHON=/usr/bin/python3 \
	    PYTHON_LIB=lib/python3/dist-packages \
	    ZSH_COMPLETIONS="$$stage/usr/share/zsh/vendor-completions" \
	    UNITS_OF_SYSTEMD="$$stage/usr/lib/systemd/user" && \
	packages/deb.sh "$$stage" "$(PACKAGES)"

# A source package for Debian, in dist/, of what is committed and the built program, from which
# dpkg-buildpackage makes the other.
source-package: $(PROGRAM)
	mkdir -p "$(PACKAGES)"
	stage=$$(mktemp -d) && trap 'rm -rf "$$stage"' EXIT && top="$$stage/rubewola-$(VERSION)" && \
	git archive --prefix=rubewola-$(VERSION)/ HEAD | tar -x -C "$$stage" && \
	mkdir -p "$$top/crates/pk_find/out" && strip -o "$$top/crates/pk_find/out/pk_find" $(PROGRAM) && \
	(cd "$$stage" && dpkg-source --build rubewola-$(VERSION)) && \
	mv "$$stage"/rubewola_$(VERSION).dsc "$$stage"/rubewola_$(VERSION).tar.* "$(PACKAGES)"

# A wheel of the client, in dist/, without the program, which it finds by PATH.
wheel:
	mkdir -p "$(PACKAGES)"
	python3 clients/python/wheels.py "$(PACKAGES)"

# The sources of what is committed, in dist/, and the same with the built program, which can be
# installed where there is no toolchain.
dist: $(PROGRAM)
	mkdir -p "$(PACKAGES)"
	git archive --prefix=rubewola-$(VERSION)/ HEAD | gzip -9n \
	    > "$(PACKAGES)/rubewola-$(VERSION).tar.gz"
	stage=$$(mktemp -d) && trap 'rm -rf "$$stage"' EXIT && \
	strip -o "$$stage/pk_find" $(PROGRAM) && \
	git archive --prefix=rubewola-$(VERSION)/crates/pk_find/out/ --add-file="$$stage/pk_find" \
	    --prefix=rubewola-$(VERSION)/ HEAD | gzip -9n \
	    > "$(PACKAGES)/rubewola-$(VERSION)-$$(uname -s -m | tr 'A-Z ' 'a-z-').tar.gz"
