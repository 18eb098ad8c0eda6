#!/bin/sh
# Measures the seat's encoding beside the original crate's, over the same key events, and the ring's drain beside a
# copy, and prints the tables of docs/SPEED.md. ORIGINAL names the folder of the original crate, wezterm-input-types
# 0.1.0 as its author published it, of which only src/lib.rs is read; or a copy of that file under another name. What
# that file stands on comes from Debian's packages librust-bitflags-dev, librust-lazy-static-dev and librust-euclid-dev
# where they are installed, and else by Cargo. SEAT_LIBRARY names a folder with a library that is already built.
set -eu
cd "$(dirname "$0")/.."
: "${ORIGINAL:?names the folder of wezterm-input-types 0.1.0, or its src/lib.rs}"
ORIGINAL=$(realpath "$ORIGINAL")
export ORIGINAL

folder=$(mktemp -d)
trap 'rm -rf "$folder"' EXIT

fail() {
    echo "benchmark: $*" >&2
    exit 1
}
command -v valgrind > /dev/null || fail 'valgrind is missing'

if [ -z "${SEAT_LIBRARY:-}" ]; then
    (cd crates/seat_c && rt lib) > "$folder/log" 2>&1 || { tail -n 40 "$folder/log" >&2; fail 'no library'; }
    SEAT_LIBRARY=crates/seat_c/out
fi
SEAT_LIBRARY=$(realpath "$SEAT_LIBRARY")
export SEAT_LIBRARY

# The library is compiled for this kind of processor, so the original is too.
RUSTFLAGS='-C target-cpu=x86-64-v2'
export RUSTFLAGS
debian=/usr/share/cargo/registry
build() {
    if [ -d "$debian" ]; then
        cargo --config 'source.crates-io.replace-with="debian"' --config "source.debian.directory=\"$debian\"" \
            build --offline --quiet --release
    else
        cargo build --quiet --release
    fi
}
(cd bindings/bench && build)
built=bindings/bench/target/release

# Valgrind's number after some words, of a run of so many passes over a class.
counted() {
    words=$1 class=$2 side=$3 passes=$4
    shift 4
    valgrind "$@" "$built/bench" work "$class" "$side" "$passes" > "$folder/counted" 2>&1
    sed -n "s/.*$words *\([0-9,]*\).*/\1/p" "$folder/counted" | tr -d ,
}

instructions() {
    counted 'Collected :' "$@" --tool=callgrind --callgrind-out-file=/dev/null
}

heap_calls() {
    counted 'total heap usage:' "$@" --tool=memcheck --leak-check=no
}

# Of an event: what the passes beyond the first few took, so that the program's start falls out.
few=100
many=1100
each() {
    measure=$1 class=$2 side=$3 events=$4
    low=$("$measure" "$class" "$side" $few)
    high=$("$measure" "$class" "$side" $many)
    [ -n "$low" ] && [ -n "$high" ] || fail "valgrind counted nothing of $class"
    awk -v low="$low" -v high="$high" -v events="$events" -v passes=$((many - few)) \
        'BEGIN { printf "%.4g", (high - low) / passes / events }'
}

echo '| Class | Events | ns, seat | ns, original | Ratio | Instructions, seat | Instructions, original | Ratio |'
echo '|---|---|---|---|---|---|---|---|'
"$built/bench" time > "$folder/times"
while read -r class events ours theirs; do
    here=$(each instructions "$class" ours "$events")
    there=$(each instructions "$class" original "$events")
    awk -v times="$ours $theirs" -v counts="$here $there" -v heads="$class | $events" 'BEGIN {
        split(times, t)
        split(counts, c)
        printf "| %s | %s | %s | %.2f | %.0f | %.0f | %.2f |\n", heads, t[1], t[2], t[1] / t[2], c[1], c[2], c[1] / c[2]
    }'
done < "$folder/times"

echo
echo '| Class | Allocations, seat | Heap calls, seat | Allocations, original |'
echo '|---|---|---|---|'
"$built/allocations" > "$folder/allocations"
while read -r class events ours theirs; do
    calls=$(each heap_calls "$class" ours "$events")
    echo "| $class | $ours | $calls | $theirs |"
done < "$folder/allocations"

echo
nm "$SEAT_LIBRARY/libseat_c.a" > "$folder/symbols"
awk '$1 == "U" { wanted[$2] }
    NF == 3 && $2 ~ /[A-Z]/ { given[$3] }
    END { for (name in wanted) if (!(name in given)) print name }' "$folder/symbols" | sort > "$folder/left"
echo "The library leaves to others: $(tr '\n' ' ' < "$folder/left")"

echo
echo '| Buffer | Oldest byte at | GB/s, drain | GB/s, copy | Ratio |'
echo '|---|---|---|---|---|'
"$built/bench" drain

echo
"$built/bench" key > "$folder/key"
read -r told encoded < "$folder/key"
echo "F5 told to a seat over a ring: $told ns; encoded with no seat: $encoded ns."
