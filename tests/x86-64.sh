# For scripts that link the static library: it is for x86-64 always, and so is whatever links it. Sourced, from the repository's root.
#   need_library   builds target/staticlib/libvarandeco.a, if it is not there or older than a source
#   need_cc        sets CC, and RUN: what a linked program is run by (nothing on x86-64, an emulator elsewhere)
#   need_rustc     the same for RUSTC
#   skip WHY       ends the script: a failure on x86-64, where everything needed is at hand, else a skip that says so
skip() {
    if [ "$(uname -m)" = x86_64 ]; then
        echo "FAILED: $1" >&2
        exit 1
    fi
    echo "SKIPPED on $(uname -m): $1"
    exit 0
}

need_library() {
    top=.
    . tests/fresh.sh
    library=target/staticlib/libvarandeco.a
    if ! is_fresh "$library"; then
        mkdir -p target/staticlib
        (cd crates/varandeco && rt lib) >target/staticlib.log 2>&1 || { cat target/staticlib.log; exit 1; }
        cp crates/varandeco/out/libvarandeco.a "$library"
    fi
}

install() {
    command -v apt-get >/dev/null && [ "$(id -u)" = 0 ] || return 1
    said=$({ apt-get update && DEBIAN_FRONTEND=noninteractive apt-get install -y --no-install-recommends "$@"; } 2>&1) || {
        printf '%s\n' "$said" | tail -n 5 >&2
        return 1
    }
}

need_cc() {
    RUN=''
    if [ "$(uname -m)" = x86_64 ]; then
        CC=${CC:-cc}
        return
    fi
    CC=x86_64-linux-gnu-gcc
    command -v $CC >/dev/null || install gcc-x86-64-linux-gnu libc6-dev-amd64-cross || skip 'no cross compiler (Debian: gcc-x86-64-linux-gnu libc6-dev-amd64-cross)'
    RUN=$(command -v qemu-x86_64) || skip 'no qemu-x86_64'
}

need_rustc() {
    need_cc
    target=x86_64-unknown-linux-gnu
    # what Rust links statically: the cross compiler's libm.a only names the files of libc6-dev:amd64
    [ "$(uname -m)" = x86_64 ] || [ -e /usr/lib/x86_64-linux-gnu/libm.a ] || { dpkg --add-architecture amd64 && install libc6-dev:amd64; } || skip 'no static C library for Rust (Debian: libc6-dev:amd64)'
    for RUSTC in "${RUSTC:-rustc}" /usr/bin/rustc; do
        has_rust && return
    done
    [ "$(uname -m)" = x86_64 ] || install rustc libstd-rust-dev:amd64 || true
    has_rust || skip "no Rust for $target (Debian: rustc libstd-rust-dev:amd64)"
}

has_rust() {
    command -v "$RUSTC" >/dev/null && [ -n "$(find "$("$RUSTC" --print sysroot)/lib/rustlib/$target/lib" -name 'libstd*.rlib' 2>/dev/null)" ]
}
