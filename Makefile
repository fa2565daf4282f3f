# Mullodai. `make` alone prints help; `make test` is the whole test.
.DELETE_ON_ERROR:
.PHONY: help test run lib speed fuzz

help:
	@echo "make run CASE=cases/night-update.case   check a case, and print the verdict"
	@echo "make test                               prove everything, and run every comparison"
	@echo "make lib                                build/libmullodai.a and build/mullodai.h, for C"
	@echo "make speed                              time the search against an ordinary Rust checker"
	@echo "make fuzz                               the four C entries under random load, with guarded buffers"

# Each step writes its own 'N passed, M failed'; the last line adds them up. A step that did not run is a failure.
test:
	@tools/test

run:
	@test -f "$(CASE)" || { echo "usage: make run CASE=cases/night-update.case"; exit 2; }
	@tools/program
	@build/bench <"$(CASE)"

lib:
	@tools/lib
	@echo "build/libmullodai.a and build/mullodai.h"

speed:
	@tools/speed

fuzz:
	@tools/fuzz
