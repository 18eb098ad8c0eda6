#!/bin/sh
# Tries the edits that the gate leaves out for its time: those under more_edits/, each a wrong line as those that stand
# in the crates. The prover must refuse each. On a copy of the crates; arguments name some of them, and none means all.
set -eu
root=$(cd "$(dirname "$0")/.." && pwd)
tmp=$(mktemp -d)
trap 'rm -rf "$tmp"' EXIT

cp "$root/crates.txt" "$tmp/"
mkdir "$tmp/crates"
for crate in "$root"/crates/*; do
    name=$(basename "$crate")
    mkdir "$tmp/crates/$name"
    for part in src specs proofs; do
        [ ! -d "$crate/$part" ] || cp -r "$crate/$part" "$tmp/crates/$name/"
    done
    [ ! -d "$root/tools/more_edits/$name" ] || cp -r "$root/tools/more_edits/$name" "$tmp/crates/$name/must-fail"
done
cd "$tmp"
[ $# -gt 0 ] || set -- $(ls "$root/tools/more_edits")
rt must-fail "$@"
