# Builds, tests, proves, installs and releases elltree by the scripts that are here, which need rt on the PATH.
PREFIX ?= /usr/local

.PHONY: all prove test check install bench release help

all: ## prove and build the program and the library, and install them in build/
	tools/install build

test: ## compile without a proof, and run the quick tests and those of the library
	tests/run quick

prove: ## prove the program and the library, and build them
	./elltree --prove
	cd crates/elltree && env -u RT_ALLOW_C -u RT_BACKEND rt lib

check: ## run CI: prove, test and run every crate
	.ci/run

install: ## prove the program and the library, and install them below PREFIX, which is /usr/local if left out
	tools/install "$(PREFIX)"

bench: ## measure the program beside plain ones
	bench/run

release: all ## make in dist/ what people install who have no kit
	tools/release --from=build dist

help: ## list the targets
	@sed -n -E 's/^([a-z]+):[^#]*## (.*)/make \1\t\2/p' $(MAKEFILE_LIST) | expand -t 16
