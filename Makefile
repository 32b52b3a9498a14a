# make            tells which programs are of these sources, and builds the others
# make test       tries the programs at hand: those that were built here, or those of dist/ (no kit is needed)
# make prove      the gate: each proof, the wrong bodies, the tests and the programs (needs rt of the Rattle kit)
# make study      makes the tables and figures of docs/STUDY.md again, in minutes (no kit is needed)
# make install    puts programs, man pages, completions and the library for C below PREFIX, all of them or none
# make uninstall  takes them away again
PREFIX = /usr/local
DESTDIR =

.PHONY: all test prove study install uninstall

all:
	@for it in $$(cat start/programs); do \
	    { found=$$(start/at-hand --current $$it) && echo "$$it: $$found is of these sources"; } || ./build $$it || exit; \
	done

test:
	@checks/quick

prove:
	@.ci/run

study:
	@$(MAKE) --no-print-directory -C study

install:
	@DESTDIR='$(DESTDIR)' PREFIX='$(PREFIX)' start/install

uninstall:
	@DESTDIR='$(DESTDIR)' PREFIX='$(PREFIX)' start/install --remove
