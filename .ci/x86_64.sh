#!/bin/sh
# Runs a program that is built for x86-64: there as it is; on another processor under the kit's emulator, with the kit's loader and
# C library, as rt does; where the kit has no emulator, under Debian's.
tools=$(dirname "$(dirname "$(rt doc)")")/on/$(uname -m)/toolchain
if [ "$(uname -m)" = x86_64 ]; then
    exec "$@"
elif [ -x "$tools/bin/qemu-x86_64" ]; then
    exec "$tools/bin/qemu-x86_64" "$tools/lib/ld-linux-x86-64.so.2" --library-path "$tools/lib" "$@"
else
    # shellcheck source=.ci/target.sh
    . "$(dirname "$0")/target.sh" && exec "$CARGO_TARGET_X86_64_UNKNOWN_LINUX_GNU_RUNNER" "$@"
fi
