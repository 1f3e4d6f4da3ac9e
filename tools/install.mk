# What make install copies of ppdb-tools: the package and the page to share/ppdb, the command to bin, the manual page and the completions. The old names of
# scripts, calls of two lines, are where they were, with the examples; nothing needs them.
tooldir ?= $(datadir)/ppdb/ppdb_tools
package = $(wildcard tools/src/ppdb_tools/*.py)
subcommands = $(wildcard tools/src/ppdb_tools/commands/*.py)
matching = $(wildcard tools/src/ppdb_tools/match/*.py)
oldnames = stacktrace stack-maps extract-embedded page verify-each symbol-store repair

.PHONY: install-tools uninstall-tools install-old-names

install-tools:
	install -d "$(DESTDIR)$(bindir)" "$(DESTDIR)$(mandir)/man1" "$(DESTDIR)$(bashdir)" "$(DESTDIR)$(zshdir)" "$(DESTDIR)$(fishdir)"
	install -D -m 644 -t "$(DESTDIR)$(tooldir)" $(package)
	install -D -m 644 -t "$(DESTDIR)$(tooldir)/commands" $(subcommands)
	install -D -m 644 -t "$(DESTDIR)$(tooldir)/match" $(matching)
	if [ -f build/page/ppdb.html ]; then install -m 644 build/page/ppdb.html "$(DESTDIR)$(datadir)/ppdb"; \
	  else echo "install: the page is left out, since make page has not made it"; fi
	install -m 755 tools/ppdb-tools "$(DESTDIR)$(bindir)/ppdb-tools"
	install -m 644 tools/man/ppdb-tools.1 "$(DESTDIR)$(mandir)/man1/ppdb-tools.1"
	install -m 644 tools/completions/ppdb-tools.bash "$(DESTDIR)$(bashdir)/ppdb-tools"
	install -m 644 tools/completions/_ppdb-tools "$(DESTDIR)$(zshdir)/_ppdb-tools"
	install -m 644 tools/completions/ppdb-tools.fish "$(DESTDIR)$(fishdir)/ppdb-tools.fish"

install-old-names:
	install -d "$(DESTDIR)$(docdir)/examples"
	for name in $(oldnames); do \
	  sed 's|/\.\./tools/ppdb-tools"|/../../../../bin/ppdb-tools"|' "scripts/$$name" >"$(DESTDIR)$(docdir)/examples/$$name" && \
	  chmod 755 "$(DESTDIR)$(docdir)/examples/$$name" || exit 1; done

uninstall-tools:
	rm -f $(foreach file,$(notdir $(package)) $(addprefix commands/,$(notdir $(subcommands))) $(addprefix match/,$(notdir $(matching))),"$(DESTDIR)$(tooldir)/$(file)")
	rm -f "$(DESTDIR)$(datadir)/ppdb/ppdb.html" "$(DESTDIR)$(bindir)/ppdb-tools" "$(DESTDIR)$(mandir)/man1/ppdb-tools.1"
	rm -f "$(DESTDIR)$(bashdir)/ppdb-tools" "$(DESTDIR)$(zshdir)/_ppdb-tools" "$(DESTDIR)$(fishdir)/ppdb-tools.fish"
	rm -f $(foreach file,$(oldnames),"$(DESTDIR)$(docdir)/examples/$(file)")
	rmdir "$(DESTDIR)$(tooldir)/commands" "$(DESTDIR)$(tooldir)/match" "$(DESTDIR)$(tooldir)" 2>/dev/null || true
