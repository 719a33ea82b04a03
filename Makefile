# Thin targets over the toolchain's command `rt`.
RUNNER := crates/cqlrun/out/cqlrun
SERVER := crates/cqld/out/cqld
FIRST := examples/first.jsonl
# from nothing, on four cores
RUN_TIME := one to three minutes
BUILD_TIME := a quarter of an hour on four fast cores, 70 to 110 minutes on plain ones that others share
TEST_TIME := half an hour to an hour and a half on four cores, by how fast they are, and longer where others share them

# where `make install` puts what it installs; what packs it sets DESTDIR
PREFIX := /usr/local
DESTDIR :=
UNITS := /etc/systemd/system
# the folder in which `make package` lays out and leaves a package
PACKAGES := out
# the server that `make serve` runs, built and not proved, and its port
UNPROVED := out/cqld-unproved
PORT := 7000

.PHONY: help run build serve install package test look drive bench check clauses lemmas goals steps edits answers

# tells what the targets do
help:
	@echo 'make run     the replies to $(FIRST), from a run that is checked and not proved ($(RUN_TIME))'
	@echo 'make build   proves and builds $(RUNNER) and $(SERVER) ($(BUILD_TIME))'
	@echo 'make serve   a server to try, on port $(PORT) with the tenants of $(FIRST): built and NOT proved, in some minutes the first time'
	@echo 'make install puts the built server, the terminal, a service file, pages of the manual and completion below PREFIX=$(PREFIX)'
	@echo 'make package the same as a package of Debian, in $(PACKAGES)'
	@echo 'make test    the gate, and then the built programs as users run them ($(TEST_TIME)); with CRATES="a b" the proofs, edits, tests and programs of these crates and of those below them'
	@echo 'make look    the part of the gate that needs nothing built: pages, laws and worked replies (ten seconds)'
	@echo 'make drive   the part of the gate that drives the built programs'
	@echo 'make clauses all public clauses, one a line; make lemmas: those that stand twice or that nothing cites (a second each)'
	@echo 'make check   checks every crate, as many at once as there are processors (as make build, and more); proves, and runs nothing'
	@echo 'make goals CRATE=NAME    the goals that took most of a check; make steps: its functions and their parts; make edits: its must-fail edits, each tried (some 10 to 40 s each)'
	@echo 'make answers CRATE=NAME  writes answers for goals whose search is in vain (a check or two)'
	@echo 'make bench   builds the programs, and times puts, query texts, fetches, rounds of them, shared streams, a store, the server, ten thousand callers and texts that ask for much, and counts instructions (an hour and a quarter)'

# runs the first script with no proof
run:
	@echo 'The replies to $(FIRST), one a line. This run is checked as it goes, and not proved. It takes $(RUN_TIME):'
	@cd crates/cqlrun && rt try < ../../$(FIRST)

# proves the programs and what they stand on, and builds them
build:
	@echo 'Proving and building $(RUNNER) and $(SERVER). From nothing this takes $(BUILD_TIME).'
	@cd crates/cqlrun && rt run < ../../$(FIRST) > /dev/null
	@cd crates/cqld && rt run -- --help > /dev/null
	@echo 'Built. Try: $(RUNNER) < $(FIRST)'

# a server for somebody who tries it while `make build` runs: what it would trap at, it traps at
serve: $(UNPROVED)
	@echo 'This server is built and NOT proved: for trying alone. Ctrl-C ends it, and what it has is gone.'
	@echo 'The tenants are a and b, with the keys ka and kb; docs/TUTORIAL.md says how to go on.'
	@head -n 1 $(FIRST) | $(UNPROVED) --port $(PORT)

$(UNPROVED): $(wildcard crates/*/src/*.rt) tools/native
	@mkdir -p $(@D)
	@echo 'Building a server, which takes some minutes. Nothing is proved of it.'
	@tools/native --traps cqld $@

# the server that was built, the terminal, and what a system wants of them
install:
	@test -x $(SERVER) || { echo 'First: make build'; exit 1; }
	install -D -m 755 $(SERVER) $(DESTDIR)$(PREFIX)/bin/cqld
	mkdir -p $(DESTDIR)$(PREFIX)/lib/romburik/romburik/static
	install -m 644 clients/python/romburik/*.py $(DESTDIR)$(PREFIX)/lib/romburik/romburik
	install -m 644 clients/python/romburik/static/* $(DESTDIR)$(PREFIX)/lib/romburik/romburik/static
	install -m 755 examples/service/romburik $(DESTDIR)$(PREFIX)/bin/romburik
	install -D -m 644 examples/service/cqld.sysusers $(DESTDIR)/usr/lib/sysusers.d/cqld.conf
	mkdir -p $(DESTDIR)$(UNITS) $(DESTDIR)$(PREFIX)/share/man/man1
	sed 's|/usr/local|$(PREFIX)|' examples/service/cqld.service > $(DESTDIR)$(UNITS)/cqld.service
	$(SERVER) --help | examples/service/manual.py cqld 1 'serves continuous queries' > $(DESTDIR)$(PREFIX)/share/man/man1/cqld.1
	PYTHONPATH=clients/python COLUMNS=80 python3 -B -m romburik --help | examples/service/manual.py romburik 1 'a terminal for cqld' > $(DESTDIR)$(PREFIX)/share/man/man1/romburik.1
	install -D -m 644 examples/service/completion.bash $(DESTDIR)$(PREFIX)/share/bash-completion/completions/cqld
	ln -sf cqld $(DESTDIR)$(PREFIX)/share/bash-completion/completions/romburik
	@echo 'Installed. The next steps are in docs/OPERATING.md, "As a service".'

# a package of Debian of what `make install` puts, by dpkg-deb alone
package: LAID := $(PACKAGES)/romburik
package:
	@command -v dpkg-deb > /dev/null || { echo 'A package wants dpkg-deb, of the package dpkg.'; exit 1; }
	rm -rf $(LAID)
	@$(MAKE) --no-print-directory install DESTDIR=$(LAID) PREFIX=/usr UNITS=/usr/lib/systemd/system > /dev/null
	gzip -9n $(LAID)/usr/share/man/man1/*.1
	install -D -m 644 examples/service/debian/README.Debian $(LAID)/usr/share/doc/romburik/README.Debian
	install -m 755 -d $(LAID)/DEBIAN
	install -m 755 examples/service/debian/postinst examples/service/debian/prerm $(LAID)/DEBIAN
	sed -e "s|@VERSION@|$$($(SERVER) --version | cut -d ' ' -f 2)|" -e "s|@ARCHITECTURE@|$$(dpkg --print-architecture)|" \
		-e "s|@SIZE@|$$(du -sk $(LAID)/usr | cut -f 1)|" examples/service/debian/control > $(LAID)/DEBIAN/control
	dpkg-deb --root-owner-group --build $(LAID) $(PACKAGES)

# every proof from nothing, the edits that must be refused, the tests, the built programs, and the pages; or
# the first three of some crates
test:
ifdef CRATES
	@rt ci $(CRATES) | tests/told
else
	@echo 'The gate. It takes $(TEST_TIME); a line on standard error tells how far it is.'
	@.ci/run
endif

# how sources are laid out, what the pages name, the figures of docs/READING.md, names that two things share, how large crates are, laws and their instances, and worked replies by the definitions
look:
	tests/format
	tests/names
	tests/reading
	tests/homonyms
	tests/rooms
	tests/laws
	tests/by_definition

# the built programs as users run them
drive:
	tests/programs
	tests/memory
	tests/server
	tests/joins
	tests/counts
	bench/joins --quick $(SERVER)
	tests/warm
	tests/page

# what a person looks at: all public clauses, and lemmas that stand twice or that nothing cites
clauses lemmas:
	@tools/$@

# a check of every crate, over what is kept
check:
	@rt all check --jobs $(shell nproc)

# of one crate, over the kept work of its check
goals steps answers:
	@tools/$@ $(CRATE)

edits:
	@rt must-fail $(CRATE)

# times puts, texts of two lengths, fetches over many rows, and many readers of one stream, through
# the built cqlrun, and counts the instructions of fetches; appends to one store, through the built worked; and sessions of the
# built cqld, also of ten thousand callers, and of texts that ask for more than their rows are worth
bench: build
	bench/puts $(RUNNER)
	bench/texts $(RUNNER) $(SERVER)
	bench/fetches $(RUNNER)
	bench/shared $(RUNNER)
	bench/rows $(RUNNER)
	bench/rounds $(RUNNER) $(SERVER)
	bench/joins $(SERVER)
	bench/workloads $(SERVER)
	@cd crates/worked && rt run > /dev/null
	bench/stores crates/worked/out/worked
	bench/server $(SERVER)
	bench/hall $(SERVER)
	bench/callers $(SERVER)
	bench/journal $(SERVER)
	bench/replies $(SERVER)
	bench/memory $(SERVER)
	bench/neighbours $(SERVER)
	bench/hostile $(SERVER)
	bench/hostile --seeds 1..400 $(SERVER)
	bench/cluster $(SERVER)
