# The commands of the README. `make` alone shows them.
.PHONY: help run replay test lib bench stack

help:
	@echo 'make run            the moves of an example job; make run JOB=FILE: of another'
	@echo 'make replay         whether a captured run follows the rule; make replay JOB=FILE CAPTURE=FILE: of others'
	@echo 'make test           the whole test; on a new machine it takes an hour or more'
	@echo 'make lib            the archive for C, target/lib/libotis.a, to use with include/otis.h'
	@echo 'make bench          times of both engines against C functions of the same'
	@echo 'make stack          how much stack every entry takes at side 8'
	@echo 'README.md says what they need, and what they do.'

run:
	@tests/run

replay:
	@tests/replay

test:
	@tests/all

# no archive of an earlier run is left where this one fails
lib:
	@tests/need rt
	@rm -f target/lib/libotis.a
	@tests/prove staticlib otis
	@mkdir -p target/lib
	@cp target/staticlib/libotis.a target/lib/libotis.a
	@echo 'target/lib/libotis.a is there'

bench:
	@tests/need rt cc
	@tests/speed

stack:
	@tests/need rt cc
	@tests/stack
