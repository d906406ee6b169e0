# The usual names for the commands in bin/, which have the options and the documentation.
top := $(dir $(realpath $(lastword $(MAKEFILE_LIST))))

.PHONY: help build test quick lint bench release

help: ## lists the targets
	@sed -n 's/^\([a-z]*\):.* ## /  make \1\t/p' "$(top)Makefile" | expand -t 18

build: ## proves and builds the program (an hour or more in a fresh clone)
	"$(top)bin/build"

test: ## runs the merge gate: all proofs and all tests
	"$(top)bin/test"

quick: ## runs the tests without the proofs, on a trial build
	"$(top)bin/test" quick

lint: ## checks the form of all files
	"$(top)bin/lint"

bench: ## measures the proved program on the examples
	"$(top)bin/bench"

release: ## makes the packages of VERSION=N after a gate that passed
	"$(top)bin/release" "$(VERSION)"
