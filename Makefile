# The gate is `make test`; `make rehearse` delivers one real message.

PROGRAM := crates/lmtpd/out/lmtpd

# Where the program's version names the toolchain.
TEXTS := crates/lmtpd_words/src/texts.rt

.PHONY: rehearse toolchain build install deb check test real wrong-bodies benchmarks

# One conversation: the replies, and then the mailbox. Where no proved program stands yet, the sources of a rehearsal are
# run with checks, unproved.
rehearse:
	@if [ -x $(PROGRAM) ]; then \
	    ./$(PROGRAM) $$(cat crates/lmtpd/args) < crates/lmtpd/stdin; \
	else \
	    echo 'make rehearse: no proved program is built yet (make build); this one runs with checks, unproved' >&2; \
	    building/rehearse.sh < crates/lmtpd/stdin; \
	fi

# Has the program's version name the toolchain that is here, as `rt version` does. It says so where it changed the file,
# which is committed then.
toolchain:
	@named=$$(rt version | sed -nE 's/^([^ ]+) (logic [0-9a-f]+)$$/\1, \2/p'); \
	[ -n "$$named" ] || { echo 'make toolchain: `rt version` names no toolchain' >&2; exit 1; }; \
	! grep -qF " ($$named)\";" $(TEXTS) || exit 0; \
	sed -i -E "s/\"([0-9.]+) \([^)]*, logic [0-9a-f]+\)\";/\"\1 ($$named)\";/" $(TEXTS); \
	grep -qF " ($$named)\";" $(TEXTS) || { echo 'make toolchain: $(TEXTS) has no version' >&2; exit 1; }; \
	cd crates/lmtpd_words && rt fmt && echo "$(TEXTS) names another toolchain now, $$named: commit it"

# Proves the libraries that aren't proved, side by side, and then proves and builds the program over that: `rt run`
# proves what a crate's stamp doesn't say is proved as it stands, and only a proved crate is built. The line that starts
# the program gives it a message, so that it ends by itself.
build: toolchain
	building/prove.py
	cd crates/lmtpd && ../../building/rt run --jobs $$(../../building/jobs_at_once) -- $$(cat args) < stdin > /dev/null

# Installs the program that `make build` made, its manual page, its units for systemd with what begins the server and
# what looks at its words and at leases before that, the user and the folder that they need, those of several servers,
# what bash completes, the pages for administrators, and the files of its words and mailboxes, each where Debian has it. DESTDIR stands before all paths. Words and mailboxes
# that are there already stay as they are.
PREFIX ?= /usr/local
CONF := /etc/lmtpd.conf
BOXES := /etc/lmtpd.boxes
UNITS := $(DESTDIR)$(PREFIX)/lib/systemd/system
BEGIN := $(DESTDIR)$(PREFIX)/lib/lmtpd
DOCUMENTS := $(DESTDIR)$(PREFIX)/share/doc/lmtpd
PLACED := sed 's|@PREFIX@|$(PREFIX)|g'
install:
	@[ -x $(PROGRAM) ] || { echo 'make install: no proved program is built yet (make build)' >&2; exit 1; }
	install -D -m 0755 $(PROGRAM) $(DESTDIR)$(PREFIX)/sbin/lmtpd
	$(PLACED) packaging/lmtpd.run > $(DESTDIR)$(PREFIX)/sbin/lmtpd-run
	chmod 0755 $(DESTDIR)$(PREFIX)/sbin/lmtpd-run
	install -m 0755 packaging/lmtpd.metrics $(DESTDIR)$(PREFIX)/sbin/lmtpd-metrics
	install -m 0755 packaging/lmtpd.two-hosts $(DESTDIR)$(PREFIX)/sbin/lmtpd-two-hosts
	install -D -m 0755 packaging/lmtpd.agent $(DESTDIR)$(PREFIX)/lib/ocf/resource.d/sentzopar/lmtpd
	install -d $(DESTDIR)$(PREFIX)/share/man/man8
	gzip -9n < packaging/lmtpd.8 > $(DESTDIR)$(PREFIX)/share/man/man8/lmtpd.8.gz
	chmod 0644 $(DESTDIR)$(PREFIX)/share/man/man8/lmtpd.8.gz
	install -D -m 0644 packaging/lmtpd.bash $(DESTDIR)$(PREFIX)/share/bash-completion/completions/lmtpd
	install -D -m 0644 packaging/lmtpd.sysusers $(DESTDIR)$(PREFIX)/lib/sysusers.d/lmtpd.conf
	install -D -m 0644 packaging/lmtpd.tmpfiles $(DESTDIR)$(PREFIX)/lib/tmpfiles.d/lmtpd.conf
	install -d $(DOCUMENTS)/operating
	install -m 0644 docs/OPERATING.md docs/BENCHMARKS.md docs/*.svg $(DOCUMENTS)
	install -m 0644 docs/operating/*.md $(DOCUMENTS)/operating
	install -d $(UNITS) $(BEGIN)
	$(PLACED) packaging/lmtpd.start > $(BEGIN)/start
	chmod 0755 $(BEGIN)/start
	$(PLACED) packaging/lmtpd.served > $(BEGIN)/served
	chmod 0755 $(BEGIN)/served
	install -m 0755 packaging/lmtpd.keys $(BEGIN)/keys
	install -m 0755 packaging/lmtpd.leases $(BEGIN)/leases
	install -m 0644 packaging/lmtpd.instance $(BEGIN)/instance.conf
	for kind in socket service; do \
	    $(PLACED) packaging/lmtpd.$$kind > $(UNITS)/lmtpd.$$kind || exit 1; \
	    sed -f packaging/instances.sed packaging/lmtpd.$$kind | $(PLACED) > $(UNITS)/lmtpd@.$$kind || exit 1; \
	    chmod 0644 $(UNITS)/lmtpd.$$kind $(UNITS)/lmtpd@.$$kind || exit 1; \
	done
	for kind in timer service; do \
	    $(PLACED) packaging/lmtpd-metrics.$$kind > $(UNITS)/lmtpd-metrics.$$kind || exit 1; \
	    chmod 0644 $(UNITS)/lmtpd-metrics.$$kind || exit 1; \
	done
	[ -e $(DESTDIR)$(CONF) ] || install -D -m 0644 packaging/lmtpd.conf $(DESTDIR)$(CONF)
	[ -e $(DESTDIR)$(BOXES) ] || install -D -m 0644 packaging/lmtpd.boxes $(DESTDIR)$(BOXES)

# Makes lmtpd_VERSION_amd64.deb in FOLDER of what `make install PREFIX=/usr` installs.
FOLDER ?= .
deb:
	@packaging/debian/make.sh $(PROGRAM) $(FOLDER)

# Proves every crate, as many side by side as cores and memory allow, over what earlier checks kept.
check:
	building/rt all check --jobs $$(building/jobs_at_once)

# Proves everything, tries the must-fail edits, and runs the program and the scripts of tests/.
test:
	@tests/gate.sh

# The server with the real programs of a site: relays and readers. It needs root and Debian's packages.
real:
	@tests/real/run.sh

# The prover tries the further wrong bodies of tests/wrong_bodies, over what stands proved.
wrong-bodies:
	@tests/wrong_bodies/run.sh

# Proves and builds what the benchmarks measure, and measures nothing.
benchmarks:
	@for script in bench/*.sh; do echo "== $$script"; $$script --build || exit 1; done
