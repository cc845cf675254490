# `make` assembles the program and the library from dist/, `make install PREFIX=..` installs them; dist/Makefile says more.
# `make check` checks both, and the commands of the documents, in about a minute, with cc, make and Python 3 alone: no kit of Rattle.
# `make check-long` compares 100,000 random runs with the plain model in tests/.
all install uninstall clean:
	@$(MAKE) --no-print-directory -C dist $@
check: all
	@python3 tests/check --program out/attr --library out
check-long: all
	@python3 tests/check --program out/attr --library out --cases 100000
.PHONY: all install uninstall clean check check-long
