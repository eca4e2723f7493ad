# shellcheck shell=sh
# The proved archive and program are for x86-64 Linux. On such a machine cargo needs nothing said. On another, this file has the
# Rust tests built for x86-64 and run by an emulator, with Debian's packages, which it installs where they are missing. Where they
# cannot be installed it says so and returns 1.

# Runs apt-get, and again for ten minutes while another process holds a lock: of the locks apt-get waits by itself for dpkg's alone.
apt_get() {
    for _ in $(seq 60); do
        said=$(LC_ALL=C DEBIAN_FRONTEND=noninteractive apt-get -qq "$@" 2>&1) && return
        case $said in
            *"Could not get lock"*) sleep 10 ;;
            *) break ;;
        esac
    done
    printf '%s\n' "$said" >&2
    return 1
}

install_missing() { # PACKAGE..
    dpkg -s "$@" >/dev/null 2>&1 && return
    echo "Installing for this processor: $*" >&2
    if ! { dpkg --add-architecture amd64 && apt_get update && apt_get install -y --no-install-recommends "$@"; }; then
        echo "Could not be installed: $*" >&2
        return 1
    fi
}

if [ "$(uname -m)" != x86_64 ]; then
    install_missing rustc-web libstd-rust-web-dev:amd64 gcc-x86-64-linux-gnu libc6-dev-amd64-cross qemu-user || return
    export RUSTC=/usr/bin/rustc RUSTDOC=/usr/bin/rustdoc CC=x86_64-linux-gnu-gcc
    export CARGO_BUILD_TARGET=x86_64-unknown-linux-gnu
    export CARGO_TARGET_X86_64_UNKNOWN_LINUX_GNU_LINKER=x86_64-linux-gnu-gcc
    export CARGO_TARGET_X86_64_UNKNOWN_LINUX_GNU_RUNNER=qemu-x86_64
fi
