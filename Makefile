# Installs phpsa, and makes its archive. The program is the proved one where ./phpsa --build or the gate has built it, and else an
# unproved build; the file PROVED beside it says which.
#
#   make install          into PREFIX, below DESTDIR
#   make release          writes the archive, of the same files, which runs from any folder
#   make gate             runs the gate, and keeps its last line for PROVED
#   make test-install     tries all of this, in a folder of its own and with no network

VERSION = 0.1.0
PREFIX = /usr/local
DESTDIR =
# The folder that the archive is written to.
TO = .

NAME = phpsa-$(VERSION)-x86_64-linux
into = $(DESTDIR)$(PREFIX)

all:
	./phpsa --program

install:
	program=$$(./phpsa --program) && \
	install -d "$(into)/lib/phpsa" && \
	install -m 755 "$$program" "$(into)/lib/phpsa/phpsa" && \
	tools/proved "$(VERSION)" "$$program" >"$(into)/lib/phpsa/PROVED"
	chmod 644 "$(into)/lib/phpsa/PROVED"
	install -D -m 755 tools/launcher "$(into)/bin/phpsa"
	install -D -m 644 docs/phpsa.1 "$(into)/share/man/man1/phpsa.1"
	install -D -m 644 LICENSE "$(into)/share/doc/phpsa/LICENSE"
	install -D -m 644 examples/stubs/env.php "$(into)/share/doc/phpsa/examples/stubs/env.php"
	install -D -m 644 tools/completions/phpsa.bash "$(into)/share/bash-completion/completions/phpsa"
	install -D -m 644 tools/completions/_phpsa "$(into)/share/zsh/site-functions/_phpsa"
	install -D -m 644 tools/completions/phpsa.fish "$(into)/share/fish/vendor_completions.d/phpsa.fish"

release:
	room=$$(mktemp -d) && trap 'rm -rf "$$room"' EXIT && \
	$(MAKE) --no-print-directory install PREFIX="/$(NAME)" DESTDIR="$$room" && \
	tar -C "$$room" --sort=name --owner=0 --group=0 --numeric-owner -czf "$(TO)/$(NAME).tar.gz" "$(NAME)"

gate:
	room=$$(mktemp -d) && trap 'rm -rf "$$room"' EXIT && \
	{ .ci/run; echo $$? >"$$room/status"; } | tee "$$room/log" && \
	mkdir -p crates/phpsa/out && tail -n 1 "$$room/log" >crates/phpsa/out/gate && \
	exit "$$(cat "$$room/status")"

test-install:
	tools/test_install.sh

.PHONY: all install release gate test-install
