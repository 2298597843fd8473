# `make demo` and `make test` are for everyone. They need the toolchain's command `rt`; the tests also need bash, git and
# python3.
PREFIX ?= /usr/local
# The name of the installed program. It is not `ipmitool`, which would hide the system's own.
NAME := serdimko
PROGRAM := crates/serdimko/out/serdimko
# The program that the definitions specify. Tests run it; it is not installed.
SPECIFIED := crates/ipmitool/out/ipmitool

# The prerequisites of a program: the sources of its crate and of the crates it depends on, without must-fail edits and
# documents; and crates.txt, unless its lines for these crates are unchanged since `make` last built the program.
built_of = $(shell scripts/rests_on $1 | sed 's/[: ].*//' | while read -r crate; do \
    find "crates/$$crate" \( -name out -o -name must-fail \) -prune -o \( -name '*.rt' -o -name '*.antt' \) -print; done) \
  $(shell cd crates/$1/out 2> /dev/null && ! [ $1 -nt $1.crates ] && ../../../scripts/rests_on $1 | cmp -s - $1.crates || echo crates.txt)

.PHONY: demo try test memory turns bench live-test monitor-test shipping-test database-test build install uninstall package package-test

# Runs the program on the image of a server (its sensors, one sensor in full, events and inventories), and on three records in
# hex.
demo: $(PROGRAM)
	$(PROGRAM) --image examples/server.image sdr list
	$(PROGRAM) --image examples/server.image sdr get 'CPU1 Temp'
	$(PROGRAM) --image examples/server.image sel list last 8
	$(PROGRAM) --image examples/server.image fru
	$(PROGRAM) --image examples/three-rows.image sdr hex

# A first look, in about a minute: compiles the program without proofs, and runs it on an image. It can read no other file than
# the copy of the image. `make try WORDS='sel list'` runs another command.
WORDS := sdr list
try:
	@echo 'unproved: the program is compiled and run, and nothing is proved of it'
	@cd crates/serdimko && rt try --data server.image=../../examples/server.image -- --image server.image $(WORDS)

# The whole gate, and the tests beside it.
test:
	@scripts/test

# Refuses each memory allocation in turn. Takes seconds after the gate; otherwise it first makes the proofs and builds it needs.
memory:
	@scripts/refuse_memory

# Checks that each turn of a must-fail edit with several turns is refused by itself. Takes more than an hour.
turns:
	@scripts/refuse_turns

# Measures instructions and memory on long images, compared to two references in C. Takes some minutes; no figure fails it.
bench: $(PROGRAM)
	@scripts/bench $(PROGRAM)

# Tests listings and captures by scripts/live over a simulated controller, with each tool and protocol, and over a tool with
# troubles. Takes minutes. Needs Debian's ipmitool, openipmi and freeipmi-tools.
live-test: $(PROGRAM)
	@scripts/live_test

# Gives metrics and checks to promtool, node_exporter, Prometheus, ipmi_exporter and check_ipmi_sensor. Takes a minute, and skips what is
# not installed: Debian's prometheus, prometheus-node-exporter, prometheus-ipmi-exporter, monitoring-plugins-contrib, libipc-run-perl,
# freeipmi-tools, ipmitool and openipmi.
monitor-test: $(PROGRAM)
	@scripts/monitor_test $(PROGRAM)

# Runs the commands of docs/shipping.md and of its unit, with a journald and an rsyslogd of its own. Takes half a minute, and skips what is
# not installed: Debian's jq, systemd, bsdutils and rsyslog.
shipping-test: $(PROGRAM)
	@scripts/shipping_test $(PROGRAM)

# Runs the blocks of docs/databases.md, with SQLite and PostgreSQL. Needs Debian's jq, sqlite3 and postgresql.
database-test: $(PROGRAM)
	@scripts/database_test $(PROGRAM)

build: $(PROGRAM)

# A program is built only if it and all crates it depends on are proved.
$(PROGRAM): $(call built_of,serdimko)
$(SPECIFIED): $(call built_of,ipmitool)
$(PROGRAM) $(SPECIFIED):
	cd crates/$(@F) && rt run < ../../examples/three-rows.image > /dev/null
	@touch $@ && scripts/rests_on $(@F) > $@.crates

# Where `make install` puts the programs, their manual pages and the completions. Some shells do not expand the ~ of
# PREFIX=~/DIR. With PREFIX=/usr, Debian's zsh looks for completions in vendor-completions; for other systems, set
# ZSH=site-functions.
TO = $(DESTDIR)$(patsubst ~/%,$(HOME)/%,$(PREFIX))
ZSH = $(if $(filter /usr /usr/,$(PREFIX)),vendor-completions,site-functions)
PROGRAMS = "$(TO)/bin/$(NAME)" "$(TO)/bin/$(NAME)-live"
TEXTS = "$(TO)/share/man/man1/$(NAME).1" "$(TO)/share/man/man1/$(NAME)-live.1" \
  "$(TO)/share/bash-completion/completions/$(NAME)" "$(TO)/share/bash-completion/completions/$(NAME)-live" \
  "$(TO)/share/zsh/$(ZSH)/_$(NAME)" "$(TO)/share/zsh/$(ZSH)/_$(NAME)-live"

# NAME may only have characters that mean themselves in a file name, a shell function and a manual page.
CHECK_NAME = $(if $(shell printf '%s' '$(NAME)' | grep -xE '[A-Za-z0-9_][A-Za-z0-9_.-]*'),,$(error NAME is '$(NAME)', and has to be letters, digits and _ . -))
# This asks the shell, because `make` itself does not see a program that it built after it started.
CHECK_BUILT = $(if $(shell test -x $(PROGRAM) && echo yes),,$(error the program is not built: run `make build` first))

# Copies the program as last built. It neither builds nor proves, so it needs no toolchain, and another user than the one who
# built the program can run it. For this reason the program is not a prerequisite. NAME is put into the manual pages and the
# completions. All users can read the installed files, whatever the umask.
install:
	$(CHECK_NAME)$(CHECK_BUILT)@umask 022; for file in $(PROGRAMS) $(TEXTS); do mkdir -p "$${file%/*}" || exit 1; done
	install -m 755 $(PROGRAM) "$(TO)/bin/$(NAME)"
	install -m 755 scripts/live "$(TO)/bin/$(NAME)-live"
	sed 's/serdimko/$(subst -,\\-,$(NAME))/g' docs/serdimko.1 > "$(TO)/share/man/man1/$(NAME).1"
	sed 's/serdimko/$(subst -,\\-,$(NAME))/g' docs/serdimko-live.1 > "$(TO)/share/man/man1/$(NAME)-live.1"
	sed 's/serdimko/$(NAME)/g' completions/serdimko.bash > "$(TO)/share/bash-completion/completions/$(NAME)"
	sed 's/serdimko/$(NAME)/g' completions/serdimko-live.bash > "$(TO)/share/bash-completion/completions/$(NAME)-live"
	sed 's/serdimko/$(NAME)/g' completions/_serdimko > "$(TO)/share/zsh/$(ZSH)/_$(NAME)"
	sed 's/serdimko/$(NAME)/g' completions/_serdimko-live > "$(TO)/share/zsh/$(ZSH)/_$(NAME)-live"
	chmod 644 $(TEXTS)

# Removes these eight files. The folders stay, as others may use them.
uninstall:
	$(CHECK_NAME)rm -f $(PROGRAMS) $(TEXTS)

# `package` makes a Debian package of the program as last built, in out/. `package-test` tests it as root, with lintian and
# debootstrap.
package:
	$(CHECK_BUILT)@scripts/package $(PROGRAM)

package-test:
	$(CHECK_BUILT)@scripts/package_test $(PROGRAM)
