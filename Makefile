# illcanon: `make first` proves the library, builds a small program over it, and writes and shows the normal forms of the messages of
# examples/. `make` proves and builds the program illcanon, `make check` proves everything and runs each test that takes less than a minute,
# `make install` copies the program, its man page and its completions, and `make uninstall` removes them again.
#
# PREFIX is the folder that they are copied to; DESTDIR is put before it, for packages. The libraries for C and Python have a Makefile of
# their own: bindings/c.

PREFIX = /usr/local
DESTDIR =
BINDIR = $(PREFIX)/bin
MANDIR = $(PREFIX)/share/man
BASH_COMPLETIONS = $(PREFIX)/share/bash-completion/completions
ZSH_COMPLETIONS = $(PREFIX)/share/zsh/site-functions
FISH_COMPLETIONS = $(PREFIX)/share/fish/vendor_completions.d
INSTALL = install
PROGRAM = crates/illcanon/out/illcanon
EXAMPLE = crates/example_normalise/out/example_normalise

.PHONY: all check first install uninstall

all:
	cd crates/illcanon && rt run -- --version

first:
	cd crates/example_normalise && rt run </dev/null
	$(EXAMPLE) <examples/every-part.ber >normal-forms.der
	cmp normal-forms.der examples/every-part.der
	od -A d -t x1 examples/expired-long-form.ber
	$(EXAMPLE) <examples/expired-long-form.ber | od -A d -t x1

# It is built where it is absent; `make` builds it again.
$(PROGRAM):
	cd crates/illcanon && rt run -- --version

check:
	@tests/check.sh

install: $(PROGRAM)
	$(INSTALL) -d '$(DESTDIR)$(BINDIR)' '$(DESTDIR)$(MANDIR)/man1' '$(DESTDIR)$(BASH_COMPLETIONS)' '$(DESTDIR)$(ZSH_COMPLETIONS)' '$(DESTDIR)$(FISH_COMPLETIONS)'
	$(INSTALL) -m 755 $(PROGRAM) '$(DESTDIR)$(BINDIR)/illcanon'
	$(INSTALL) -m 644 man/illcanon.1 '$(DESTDIR)$(MANDIR)/man1/illcanon.1'
	$(INSTALL) -m 644 completions/illcanon.bash '$(DESTDIR)$(BASH_COMPLETIONS)/illcanon'
	$(INSTALL) -m 644 completions/_illcanon '$(DESTDIR)$(ZSH_COMPLETIONS)/_illcanon'
	$(INSTALL) -m 644 completions/illcanon.fish '$(DESTDIR)$(FISH_COMPLETIONS)/illcanon.fish'

uninstall:
	rm -f '$(DESTDIR)$(BINDIR)/illcanon' '$(DESTDIR)$(MANDIR)/man1/illcanon.1' '$(DESTDIR)$(BASH_COMPLETIONS)/illcanon'
	rm -f '$(DESTDIR)$(ZSH_COMPLETIONS)/_illcanon' '$(DESTDIR)$(FISH_COMPLETIONS)/illcanon.fish'
