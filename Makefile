# What there is to call. `make` alone says it, from the words behind each target, and does nothing else.
.PHONY: help demo test build bench stack

help: ## says this
	@sed -n 's/^\([a-z]*\):.*## /make \1	/p' Makefile

demo: ## builds what is needed, and plays the accident that the module prevents
	@scripts/demo

test: ## runs every test and every proof; the last line is `N passed, 0 failed`
	@scripts/test

build: ## proves and builds the programs of bin/knotcinder and bin/keeper, and builds that of bin/explain
	@scripts/build-program knotcinder
	@scripts/build-program keeper
	@bin/explain </dev/null

bench: ## times the keeper beside the second one, and the proved digest beside a plain Rust one
	@scripts/bench-keeper
	@scripts/bench-digest

stack: ## says how much stack the module and its digest take, and by which calls, out of the compiled code
	@scripts/stack
