# Installs gams25: `make install` under /usr/local, `make install PREFIX=$HOME/.local` for one user.
# `make check` runs the tests.
PREFIX = /usr/local
DESTDIR =

at = $(DESTDIR)$(PREFIX)
folder = $(at)/share/gams25
manual = $(at)/share/man/man1
documents = $(at)/share/doc/gams25
tools = $(wildcard gams25-show)
parts = $(if $(tools),$(filter-out %.pyc,$(wildcard show/*.*)))
pages = $(wildcard docs/*.1)
trees = $(wildcard docs examples editors)

.PHONY: all install uninstall check packages

all:
	@echo 'make install, make uninstall, make check, make packages; PREFIX is $(PREFIX)'

install:
	program=$$(.ci/program) && install -D -m 755 "$$program" $(at)/bin/gams25
	install -d $(folder)/show $(manual) $(documents)
	$(if $(tools),install -m 755 -t $(folder) $(tools))
	$(if $(parts),install -m 644 -t $(folder)/show $(parts))
	$(foreach tool,$(tools),ln -sf ../share/gams25/$(tool) $(at)/bin/$(tool) &&) true
	install -m 644 -t $(manual) $(pages)
	install -m 644 -t $(documents) README.md CHANGES.md VERSION
	find $(trees) -type f \( -path '*/expected/*' -o ! -name '*.lst' ! -name '*.sav' ! -name '*.1' \) | sort \
		| tar -cf - --mode=u=rw,go=r -T - | tar -C $(documents) --no-same-owner -xf -

uninstall:
	rm -f $(at)/bin/gams25 $(addprefix $(at)/bin/,$(tools)) $(addprefix $(manual)/,$(notdir $(pages)))
	rm -rf $(folder) $(documents)

check:
	tests/run

packages:
	.ci/packages
