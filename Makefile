# What a user wants of a clone, on a machine with the toolchain (`rt`). README.md tells each.
PREFIX = /usr/local
EXAMPLE = run "$(CURDIR)/examples/latex.toml" "$(CURDIR)/examples/latex-lengths.log"
DRAWN = "$(CURDIR)/examples/ten-lines.out"
PROGRAMS = pg/out/pg:pg pg_draw_main/out/pg_draw_main:pg_draw pg_tell_main/out/pg_tell_main:pg_tell
BIN = $(DESTDIR)$(PREFIX)/bin
MAN = $(DESTDIR)$(PREFIX)/share/man/man1

.PHONY: try build built test draw install

# pages within three minutes, unproved
try:
	cd crates/pg && rt try -- $(EXAMPLE)

# the three programs, proved: half an hour and more
build:
	cd crates && for it in pg_draw_main pg_tell_main; do (cd $$it && rt run -- --version) || exit; done && cd pg && rt run -- make 1

# the gate: every proof, wrong body, test and program
test:
	.ci/run

# a drawing of an example, unproved
draw:
	cd crates/pg_draw_main && rt try -- $(DRAWN) > "$(CURDIR)/ten-lines.html" && echo "open ten-lines.html in a browser"

built:
	@test -x crates/pg/out/pg || { echo "run 'make build' first"; exit 1; }

# the programs and their manual pages; `make -C tex install` puts the LaTeX package, pgtex and its page in place
install: built
	install -D -m 644 -t "$(MAN)" man/*.1 && for it in $(PROGRAMS); do install -D crates/$${it%:*} "$(BIN)/$${it#*:}" || exit; done
