# Installs what `./ehci --prove` or `./ehci --build`, `./ehci-trace --build` and `make library` have built: make install PREFIX=/usr/local.
PREFIX ?= /usr/local
DESTDIR ?=
TO = $(DESTDIR)$(PREFIX)
LIBEXEC = $(TO)/libexec/ehci
TOOLS = wrapper.sh about.sh fold.awk explain.py svg.py draw_microframes.py draw_structures.py
PROGRAMS = ehci ehci_machine ehci_trace ehci_probe
COMMIT = $(shell git diff --quiet HEAD 2>/dev/null && git rev-parse HEAD 2>/dev/null)

.PHONY: install uninstall library

# The controller for C and Rust: libehci.a, proved where that isn't done yet (docs/LIBRARY.md).
library:
	tools/library.sh
	cp crates/ehci_c/out/libehci.a libehci.a

install:
	@[ -x crates/ehci/out/ehci ] || [ -x crates/ehci_machine/out/ehci_machine ] || \
		{ echo "make: no program is built: ./ehci --build, or ./ehci --prove" >&2; exit 1; }
	install -d $(TO)/bin $(LIBEXEC) $(TO)/share/man/man1 $(TO)/share/doc/ehci/examples $(TO)/share/bash-completion/completions
	install -m 755 ehci ehci-trace $(TO)/bin
	for name in $(PROGRAMS); do \
		if [ -x crates/$$name/out/$$name ]; then install -m 755 crates/$$name/out/$$name $(LIBEXEC) || exit 1; fi; \
	done
	cd tools && install -m 644 $(TOOLS) $(LIBEXEC)
	{ rt version | head -n 1; if [ -n "$(COMMIT)" ]; then echo "commit $(COMMIT)"; fi; } > $(LIBEXEC)/version
	install -m 644 docs/*.1 $(TO)/share/man/man1
	install -m 644 README.md CHANGELOG.md docs/FORMATS.md docs/LIBRARY.md $(TO)/share/doc/ehci
	install -m 644 examples/*.ehci examples/*.report $(TO)/share/doc/ehci/examples
	install -m 644 tools/completion.bash $(TO)/share/bash-completion/completions/ehci
	if [ -f crates/ehci_c/out/libehci.a ]; then \
		install -d $(TO)/lib $(TO)/include && install -m 644 crates/ehci_c/out/libehci.a $(TO)/lib && install -m 644 include/* $(TO)/include || exit 1; \
	fi
	ln -sf ehci $(TO)/share/bash-completion/completions/ehci-trace

uninstall:
	rm -rf $(LIBEXEC) $(TO)/share/doc/ehci
	rm -f $(TO)/lib/libehci.a $(TO)/include/ehci.h $(TO)/include/ehci_bus.h $(TO)/include/ehci.rs
	rm -f $(TO)/bin/ehci $(TO)/bin/ehci-trace $(TO)/share/bash-completion/completions/ehci $(TO)/share/bash-completion/completions/ehci-trace
	cd docs && for page in *.1; do rm -f $(TO)/share/man/man1/$$page; done
