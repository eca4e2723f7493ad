#!/bin/sh
# usage: sh .ci/build.sh [library] [program]
# Proves and builds the static library, to target/staticlib, or the program, to target/bin, or both. What the prover says goes to
# target/library.log and target/draw.log.
cd "$(dirname "$0")/.." || exit 1
mkdir -p target/staticlib target/bin

build() { # CRATE LOG COMMAND..
    crate=$1
    log=$PWD/target/$2
    shift 2
    (cd "crates/$crate" && "$@") >"$log" 2>&1 || {
        tail -n 20 "$log"
        exit 1
    }
}

for what in ${*:-library program}; do
    case $what in
        library) build hildrasp library.log rt lib && cp crates/hildrasp/out/libhildrasp.a target/staticlib/ ;;
        program) build draw_sheet draw.log sh -c 'rt run <stdin' && cp crates/draw_sheet/out/draw_sheet target/bin/ ;;
        *) echo "no such thing to build: $what" >&2 && exit 1 ;;
    esac || exit 1
done
