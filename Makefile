# `make install` puts the program, its tools with their pages, examples and the shell's disk, manual pages and the shell's completion
# below PREFIX, and `make uninstall` takes them away; `make check` tests the tools. Nothing is built here: crates/ has its own way, see
# README.md.
PREFIX = /usr/local
DESTDIR =

.PHONY: all check install uninstall

all:
	@echo "nothing to be built: make install, make check"

check:
	tools/tests/run.py

install uninstall:
	@tools/install.py $@ "$(PREFIX)" "$(DESTDIR)"
