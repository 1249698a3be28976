# What there is to do here. Each target is one command, whose first comment says more.

.PHONY: help install quick test release

help:
	@sed -n 's/^\([a-z]*\):.*# */make \1: /p' Makefile

install: # prove, build and install the programs into PREFIX, by default ~/.local
	tools/install $(PREFIX)

quick: # all checks that need no proof, in two minutes
	tools/quick

test: # all tests, with the proofs: 80 minutes on four cores
	tools/test/all

release: # pack what was proved
	tools/release
