# make            builds the proved program, crates/mcaudit/out/mcaudit: each library once those that it uses are
#                 proved, as many at once as there are cores and 4 GB of free memory each, at most 4, or so many as
#                 `make -j N` or `make JOBS=N` says; what is proved already, and unchanged, takes moments. With
#                 KEEP_PROOFS=1 each keeps what it proves, so that less is proved again after a change; the first
#                 time that takes longer
# make example    shows an audit of a fault and of its fix, and the whole path to a verdict; by the program if it is built
# make test       the gate: every proof, the edits that must fail, the tests, the command-line cases, and those of tools/;
#                 REPORT=FILE writes what each part took
# make bench      runs the program on large domains, and writes what that took into bench/RESULTS.md (it needs python3);
#                 at its end stands what a byte and a line cost, in time and, where valgrind is there, in instructions,
#                 which repeat. BEFORE=PATH, an earlier build of the program, runs beside it. It fails where a domain
#                 takes more than 24 MiB, or 32 where each of 4,096 flows has a fault that is explained, or a certificate
#                 in another form more than twice the time that the same takes as `make` writes it, or 32 MiB, or where
#                 mcaudit-plan takes more time or memory for 4,096 flows than bench/plan.py allows
# make fuzz       fuzzes each command with afl++ for an hour in all, on one core, and writes what that covered and found
#                 into bench/fuzz.md; MINUTES=N takes N minutes, KEEP=FOLDER keeps the findings there
# make lab        from routers to a verdict and a page, each kind of fault to its plan and its remedy, and what the guide
#                 shows of routers, in network namespaces (it needs root; the file `packages` says what else);
#                 PAGES=FOLDER keeps the pages there
# make page-test  tries the page of mcaudit-page in a headless Chromium; PICTURES=FOLDER writes pictures of it there
# make proofs     writes docs/PROOFS.md: each public call of the library crates, with the clauses that are proved of it
# make install    puts the program and its tools into $(PREFIX)/bin, what the tools share, the manual pages and the
#                 completions for bash, zsh and fish into $(PREFIX)/share, and the units of systemd and their user into
#                 $(PREFIX)/lib; ZSH=FOLDER is where zsh looks for functions
# make uninstall  takes them away again
# make dist       makes out/mcaudit-VERSION.tar.gz, the source, and out/mcaudit-VERSION-linux-x86_64.tar.gz, what
#                 `make install` installs
# make deb        makes a Debian package of that, out/mcaudit_VERSION_amd64.deb; tests/package/run.sh tries it

PREFIX ?= /usr/local
VERSION = $(shell cat VERSION)
PROGRAM = crates/mcaudit/out/mcaudit
TOOLS = mcaudit-collect mcaudit-diff mcaudit-draft mcaudit-monitor mcaudit-page mcaudit-plan mcaudit-premises \
	mcaudit-query mcaudit-reports mcaudit-site mcaudit-try
# each of them is quoted where it is used: a path may have spaces and signs of the shell
UNITS = $(DESTDIR)$(PREFIX)/lib/systemd/system
BASH_COMPLETIONS = $(DESTDIR)$(PREFIX)/share/bash-completion/completions
FISH_COMPLETIONS = $(DESTDIR)$(PREFIX)/share/fish/vendor_completions.d
PACKAGE = $(DESTDIR)$(PREFIX)/share/mcaudit
PAGES_OF_MANUAL = $(DESTDIR)$(PREFIX)/share/man/man1
ZSH = $(PREFIX)/share/zsh/site-functions
# a word of the shell, whatever is in it
quoted = '$(subst ','\'',$(1))'
SOURCES = $(shell find crates \( -path '*/out' -o -path 'crates/mc_tests_*' \) -prune -o -type f \( -name '*.rt' -o -name '*.antt' \) -print) crates.txt
# how many libraries are proved at once: the N of -j N, if there is one, and otherwise as crates/prove.py has it
JOBS ?= $(patsubst -j%,%,$(filter -j%,$(MAKEFLAGS)))

.PHONY: all example test bench fuzz lab page-test proofs install uninstall dist deb

all: $(PROGRAM)

$(PROGRAM): $(SOURCES)
	rm -f $(PROGRAM)
	python3 crates/prove.py $(if $(JOBS),--jobs $(JOBS)) $(if $(KEEP_PROOFS),--keep) mcaudit
	cd crates/mcaudit && rt run -- check < stdin
	test -x $(PROGRAM)

example:
	@if $(MAKE) -s -q $(PROGRAM); then \
		sh examples/whole_way.sh $(PROGRAM); else sh examples/whole_way.sh; fi

test:
	python3 tests/gate/run.py $(REPORT)

bench: $(PROGRAM)
	python3 bench/run.py $(PROGRAM) --only forms --bounds forms,forms-memory; status=$$?; \
	python3 bench/plan.py $(PROGRAM) || status=1; \
	python3 bench/run.py --write bench/RESULTS.md --bounds memory,explaining-memory $(PROGRAM) $(BEFORE) || status=1; \
	exit $$status

fuzz: $(PROGRAM)
	python3 bench/fuzz/run.py $(PROGRAM) --write bench/fuzz.md $(if $(MINUTES),--minutes $(MINUTES)) $(if $(KEEP),--keep $(KEEP))

lab: $(PROGRAM)
	sh tests/lab/run.sh $(PROGRAM)
	sh tests/lab/ten.sh $(PROGRAM) $(PAGES)
	sh tests/lab/pim.sh $(PROGRAM)
	python3 tests/lab/premises.py $(PROGRAM) --ssh
	python3 tests/lab/many.py $(PROGRAM)
	python3 tests/lab/conf.py $(PROGRAM)
	python3 tests/lab/hosts.py $(PROGRAM)
	python3 tests/lab/guide.py $(PROGRAM)

page-test:
	sh tests/packages.sh page
	python3 tests/page/run.py $(PICTURES)

proofs: docs/PROOFS.md

docs/PROOFS.md: $(SOURCES) tests/docs/proofs.py
	python3 tests/docs/proofs.py $@

install: $(PROGRAM)
	install -D -m 755 $(call quoted,$(PROGRAM)) $(call quoted,$(DESTDIR)$(PREFIX)/bin/mcaudit)
	for tool in $(TOOLS); do \
		install -D -m 755 "tools/$$tool" $(call quoted,$(DESTDIR)$(PREFIX)/bin)/"$$tool" || exit 1; done
	find tools/mcaudit_tools -type f ! -name '*.pyc' -exec sh -c 'for file; do \
		install -D -m 644 "$$file" "$$0/$${file#tools/}" || exit 1; done' $(call quoted,$(PACKAGE)) {} +
	install -D -m 644 tools/systemd/mcaudit.conf $(call quoted,$(DESTDIR)$(PREFIX)/lib/sysusers.d/mcaudit.conf)
	install -D -m 644 tools/systemd/mcaudit-monitor.timer $(call quoted,$(UNITS)/mcaudit-monitor.timer)
	install -D -m 644 tools/systemd/mcaudit-monitor.service $(call quoted,$(UNITS)/mcaudit-monitor.service)
	python3 -I packaging/unit_prefix.py $(call quoted,$(UNITS)/mcaudit-monitor.service) $(call quoted,$(PREFIX))
	for name in mcaudit $(TOOLS); do \
		install -D -m 644 "docs/$$name.1" $(call quoted,$(PAGES_OF_MANUAL))/"$$name.1" || exit 1; done
	install -D -m 644 tools/mcaudit.bash $(call quoted,$(BASH_COMPLETIONS)/mcaudit)
	install -D -m 644 tools/mcaudit.fish $(call quoted,$(FISH_COMPLETIONS)/mcaudit.fish)
	install -D -m 644 tools/mcaudit.zsh $(call quoted,$(DESTDIR)$(ZSH)/_mcaudit)
	for tool in $(TOOLS); do \
		ln -sf mcaudit $(call quoted,$(BASH_COMPLETIONS))/"$$tool" && \
		ln -sf mcaudit.fish $(call quoted,$(FISH_COMPLETIONS))/"$$tool.fish" || exit 1; done

uninstall:
	for name in mcaudit $(TOOLS); do rm -f $(call quoted,$(DESTDIR)$(PREFIX)/bin)/"$$name" \
		$(call quoted,$(BASH_COMPLETIONS))/"$$name" \
		$(call quoted,$(FISH_COMPLETIONS))/"$$name.fish" $(call quoted,$(PAGES_OF_MANUAL))/"$$name.1" || exit 1; done
	rm -rf $(call quoted,$(PACKAGE)/mcaudit_tools)
	rm -f $(call quoted,$(DESTDIR)$(PREFIX)/lib/sysusers.d/mcaudit.conf) $(call quoted,$(DESTDIR)$(ZSH)/_mcaudit) \
		$(call quoted,$(UNITS)/mcaudit-monitor.timer) $(call quoted,$(UNITS)/mcaudit-monitor.service)

dist: $(PROGRAM)
	sh packaging/dist.sh $(call quoted,$(VERSION))

deb: $(PROGRAM)
	sh packaging/deb.sh $(call quoted,$(VERSION))
