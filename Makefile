# make run       check the shipped example cues and show what became of each
# make rehearse  replay the shipped script on one cue memory
# make trials    compare the product with the second checker on random runs
# make fuzz      compare the library with a second implementation in Rust, on 300,000 inputs
# make bench     measure the library beside that implementation
# make test      the merge gate: every proof, must-fail edit, program and test
.PHONY: run rehearse trials fuzz bench test

run: target/bin/cueline
	@for cue in examples/*.cue; do printf '%-34s %-8s ' "$$cue" "$$(head -n 1 $$cue)"; target/bin/cueline < $$cue; done

rehearse: target/bin/rehearse
	@target/bin/rehearse < crates/rehearse/stdin

trials: target/bin/trials
	@target/bin/trials

fuzz: target/outside/fuzz
	@target/outside/fuzz

bench: target/outside/bench
	@target/outside/bench

sources := crates.txt $(shell find crates \( -name out -o -name must-fail \) -prune -o -type f -print)

# Only what is proved is built. The toolchain builds a program where it runs it, so it is run once on no input.
target/bin/%: $(sources)
	@mkdir -p target/bin
	@cd crates/$* && rt run < /dev/null > ../../target/$*.log 2>&1 || { cat ../../target/$*.log; exit 1; }
	@cp crates/$*/out/$* $@

# The library is proved before it is built.
library = target/staticlib/libfekhtovi.a

$(library): $(sources)
	@mkdir -p target/staticlib
	@cd crates/fekhtovi && rt lib > ../../target/fekhtovi.log 2>&1 || { cat ../../target/fekhtovi.log; exit 1; }
	@cp crates/fekhtovi/out/libfekhtovi.a $@

target/outside/%: $(wildcard outside/*.rs) $(library)
	@mkdir -p target/outside
	@rustc -O --edition 2024 outside/$*.rs -o $@ -C link-arg=$(library)

test:
	@.ci/run
