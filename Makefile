# make run      the main job on its built-in example
# make test     `rt ci`, which proves every crate, tries the must-fail edits and runs the programs, and then all other tests: the gate. What rt ci has passed on this machine it keeps beside the kit, and does not prove again while nothing changes
# make long     the body's limit itself, 4,294,967,296 bytes and one more, through a pipe; about a minute, and not in the gate
# make fuzz     a million random lists of calls beside the second reader, then the C interface's fuzz target for two minutes
# make bench    speed: SHA-512, SHA-256, base64 and the whole reader beside ordinary Rust ones, and the judgement of large heads
# make fetch    the programs oui-fetch, oui-sign and oui-relay, in rust/target/release
# make picture  docs/crates.svg anew from crates.txt
# What is under way is told on standard error, by make test on standard output (scripts/progress).
.PHONY: run test long fuzz bench program fetch picture

run: program
	@cd crates/ouiread/data && ../../../target/bin/ouiread stream ring answers --uri uri

test:
	@scripts/gate

long: program
	@scripts/long

bench:
	@scripts/setup
	@bench/hash.sh
	@bench/timed base64 base64
	@bench/timed head 'the judgement of a head'
	@bench/reader.sh

fuzz:
	@scripts/setup fuzz
	@scripts/fuzz

# The programs over the proved library, which is proved and built first
fetch:
	@scripts/setup
	@scripts/library
	@scripts/cargo-build -p oui-fetch -p oui-sign -p oui-relay
	@echo 'oui-fetch, oui-sign and oui-relay are in rust/target/release'

picture:
	@scripts/crates-picture >docs/crates.svg.new && mv docs/crates.svg.new docs/crates.svg

# The program alone, proved and linked
program:
	@scripts/setup
	@scripts/program
