# Targets for people; `make help` lists them.
.PHONY: help run meeting test
.DEFAULT_GOAL := help

help:
	@echo "make run      build the gateway and carry out the demonstration day"
	@echo "make meeting  the same: the meeting is the second part of that day"
	@echo "make test     the gate: proofs, must-fail edits, programs, tests"

run meeting:
	@tools/run-day

test:
	@tools/gate
