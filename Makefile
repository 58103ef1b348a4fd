# make test: everything that checks. make demo: what there is to see. make library: the library for C.
# make deps: Debian's packages, as root. make witness: the projection against PROJ. make bench: how long it takes, beside PROJ.
.PHONY: test demo library deps witness bench

test:
	@tools/test

demo:
	@tools/demo

library:
	@tools/library

deps:
	@tools/deps

witness:
	@tools/witness

bench:
	@tools/bench
