# Sourced by the scripts that build and run programs over the static library, from the project's root.
#
# The library is for two machines, x86_64 and aarch64. A script works for the one that it runs on, or for the one that the variable
# LATCHBEACON_MACHINE names; programs of another machine are run by an emulator.
#
#   machine           the machine
#   machine_title     what runs: native aarch64, native x86-64, emulated x86-64 or emulated aarch64
#   machine_library   where its library stands, and machine_maker, the command that writes it: on x86-64, where the kit runs
#   machine_tools [install]
#                     finds a C compiler, cargo and a Rust for the machine and, if it is another one, an emulator. It exports what
#                     cargo needs for them, MACHINE_CC (the compiler) and MACHINE_RUN (what to put before a program; empty if it
#                     runs as it is). If something is not there it names it and answers 1. With `install` the missing ones for
#                     another machine are first installed with apt-get, if that is there and the user is root.

machine=${LATCHBEACON_MACHINE:-$(uname -m)}
case $machine in
    x86_64)
        machine_title=x86-64
        machine_debian=amd64
        machine_library=crates/latchbeacon/out/liblatchbeacon.a
        machine_maker="(cd crates/latchbeacon && rt lib)"
        ;;
    aarch64)
        machine_title=aarch64
        machine_debian=arm64
        machine_library=target/aarch64/liblatchbeacon.a
        machine_maker=tools/arm
        ;;
    *)
        echo "the static library is for x86_64 and aarch64, not for $machine" >&2
        exit 2
        ;;
esac
if [ "$machine" = "$(uname -m)" ]; then
    machine_title="native $machine_title"
else
    machine_title="emulated $machine_title"
fi

# Whether programs of the machine run as they are.
machine_is_native() {
    [ "$machine" = "$(uname -m)" ]
}

# A Rust compiler that has the standard library for the machine.
machine_rustc() {
    local rustc libraries
    for rustc in "${RUSTC:-}" rustc /usr/bin/rustc; do
        [ -n "$rustc" ] && command -v "$rustc" >/dev/null || continue
        libraries=$("$rustc" --print target-libdir --target "$machine-unknown-linux-gnu" 2>/dev/null) || continue
        if ls "$libraries"/libstd-*.rlib >/dev/null 2>&1; then
            command -v "$rustc"
            return 0
        fi
    done
    return 1
}

# Debian's packages for programs of another machine.
machine_install() {
    [ "$(id -u)" = 0 ] && command -v apt-get >/dev/null && command -v dpkg >/dev/null || return 1
    local get="apt-get -qq -o Acquire::Retries=1 -o Acquire::http::Timeout=20"
    dpkg --add-architecture "$machine_debian" &&
        timeout 120 $get update &&
        DEBIAN_FRONTEND=noninteractive timeout 300 $get install -y --no-install-recommends \
            rustc-web "libstd-rust-web-dev:$machine_debian" "gcc-${machine//_/-}-linux-gnu" "libc6-dev-$machine_debian-cross" qemu-user
} >/dev/null 2>&1

# What is not there, one line each.
machine_missing() {
    command -v cargo >/dev/null || echo "cargo"
    machine_rustc >/dev/null || echo "a rustc with the standard library for $machine-unknown-linux-gnu"
    if machine_is_native; then
        command -v cc >/dev/null || echo "cc"
    else
        command -v "$machine-linux-gnu-gcc" >/dev/null || echo "$machine-linux-gnu-gcc"
        [ -x "/usr/bin/qemu-$machine" ] || echo "/usr/bin/qemu-$machine"
    fi
}

machine_tools() {
    local missing
    missing=$(machine_missing)
    if [ -n "$missing" ] && [ "${1:-}" = install ] && ! machine_is_native; then
        machine_install || true
        missing=$(machine_missing)
    fi
    if [ -n "$missing" ]; then
        echo "no tools for $machine_title here; missing:" $missing
        return 1
    fi
    if machine_is_native; then
        export MACHINE_CC=cc MACHINE_RUN=
        return 0
    fi
    RUSTC=$(machine_rustc)
    RUSTDOC=$(dirname "$RUSTC")/rustdoc
    export RUSTC RUSTDOC
    export MACHINE_CC=$machine-linux-gnu-gcc MACHINE_RUN=/usr/bin/qemu-$machine
    export CARGO_BUILD_TARGET=$machine-unknown-linux-gnu
    export "CARGO_TARGET_${machine^^}_UNKNOWN_LINUX_GNU_LINKER=$MACHINE_CC"
    export "CARGO_TARGET_${machine^^}_UNKNOWN_LINUX_GNU_RUNNER=$MACHINE_RUN"
}
