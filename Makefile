# make draw      builds the program and runs it on the example sheet; what the prover says goes to target/draw.log
# make test      the gate: everything proved, every test passed
# make bench     times of the library beside Rust written for this, as ratios, on x86-64; with BEFORE=FILE also beside the
#                library of an earlier commit: FILE is its libhildrasp.a, kept outside this target folder
# make picture   draws docs/four_bits.svg anew
.PHONY: draw test bench picture

draw:
	@sh .ci/build.sh program
	@sh .ci/x86_64.sh target/bin/draw_sheet < crates/draw_sheet/stdin

test:
	bash .ci/run

# The functions of both libraries start at multiples of 64 bytes: the same machine code at other places takes other times.
ALIGN = objcopy --set-section-alignment '.text.*=64'

bench:
	sh .ci/build.sh library
	mkdir -p target/bench
	$(ALIGN) target/staticlib/libhildrasp.a target/bench/libhildrasp.a
ifdef BEFORE
	$(ALIGN) $(BEFORE) target/bench/before.a
	cc -shared -o target/bench/before.so -Wl,--whole-archive target/bench/before.a -Wl,--no-whole-archive
endif
	cd rust && HILDRASP_ARCHIVE=../target/bench cargo run --release --offline --bin bench -- $(if $(BEFORE),../target/bench/before.so)

picture:
	sh .ci/build.sh library
	. .ci/target.sh && cd rust && cargo run --quiet --release --offline --bin picture > ../docs/four_bits.svg
