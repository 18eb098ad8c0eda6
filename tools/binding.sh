#!/bin/sh
# Builds the static library, tests the binding in Rust over it, and runs its example on the recorded passes: the bytes
# must be those that the console tells of the same passes. Offline. With LIBRARIES_STAND the libraries built under
# crates/ are taken as they stand, and only the static library is proved and built.
set -eu
cd "$(dirname "$0")/.."
root=$PWD
. tools/libraries.sh

folder=$(mktemp -d)
trap 'rm -rf "$folder"' EXIT

# Runs a step, and shows what it said only where it failed.
step() {
    if ! "$@" > "$folder/log" 2>&1; then
        tail -n 40 "$folder/log" >&2
        echo "binding: failed at $*" >&2
        exit 1
    fi
}

build() {
    if [ -z "${LIBRARIES_STAND:-}" ]; then
        rt lib
        return
    fi
    mkdir -p out
    # the words hold no spaces of their own
    "$kit/bin/rattle" build --crate-name seat_c src/lib.rt \
        $(over $(sed -n 's/^seat_c staticlib: *//p' "$root/crates.txt")) --links seat_c= \
        --jobs 2 --crate-type staticlib --toolchain "$kit/toolchain" --backend llvm -o out/libseat_c.a
}

cd crates/seat_c
step build
cd ../..
cd bindings/rust
step cargo test --offline --quiet
step cargo build --offline --quiet --release --example pass

# The drained bytes of what the console printed, in hex: two digits a byte, before two spaces.
drained() {
    sed -n 's/^[0-9]* drain [0-9]*: \(\([0-9a-f][0-9a-f] \)*[0-9a-f][0-9a-f]\)  .*/\1/p' "$1" | tr -d ' \n'
}

bytes=0
for pass in pass requests; do
    told=$(target/release/examples/pass < "../../examples/$pass.txt" 2> /dev/null | od -An -v -tx1 | tr -d ' \n')
    wanted=$(drained "../../examples/$pass.out")
    if [ -z "$wanted" ] || [ "$told" != "$wanted" ]; then
        echo "binding: the bytes of $pass.txt differ" >&2
        exit 1
    fi
    bytes=$((bytes + ${#told} / 2))
done
echo "binding: tests passed, and $bytes bytes of recorded passes are those of the console"
