# Sourced by scripts that call the compiler itself, over libraries that stand built under crates/. `rt lib` builds
# those, and `rt ci` leaves them where it proved their crates, but no command of rt takes these up again: a script that
# comes after it would have to prove each crate once more.

kit=$(dirname "$(rt doc)")

# The compiler's words for a crate that names these libraries, from the folder that $root names.
over() {
    printf -- '--extern std=%s/rlibs/std.rlib -L dependency=%s/rlibs ' "$kit" "$kit"
    for library in "$@"; do
        printf -- '--extern %s=%s/crates/%s/out/rlib/%s.rlib ' "$library" "$root" "$library" "$library"
    done
    for folder in "$root"/crates/*/out/rlib; do
        printf -- '-L dependency=%s ' "$folder"
    done
    printf -- '--antt-project %s/rattle/logic/antt-project.json --logic-built %s/logic_built' "$kit" "$kit"
}
