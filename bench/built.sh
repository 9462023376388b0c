# What the scripts begin with that time a library: a program is built over copies of the crates. Source it after
# `cd` to the top of the repository. It needs GNU time.
. bench/room.sh

# Builds the program of this name, whose main file comes on standard input, over these crates and those below
# them, of the repository.
build() {
    local name=$1 crate
    shift
    mkdir -p "$room/crates/$name/src"
    cat >"$room/crates/$name/src/main.rt"
    local wanted="$*" before=
    while [ "$wanted" != "$before" ]; do
        before=$wanted
        wanted=$(for crate in $wanted; do
            echo "$crate"
            sed -n "s/^$crate: *//p" crates.txt | tr ' ' '\n'
        done | sort -u | tr '\n' ' ')
    done
    for crate in $wanted; do
        [ -d "crates/$crate" ] || continue
        mkdir -p "$room/crates/$crate"
        cp -r "crates/$crate/src" "crates/$crate/specs" "crates/$crate/proofs" "$room/crates/$crate" 2>/dev/null || true
        grep "^$crate:" crates.txt >>"$room/crates.txt"
    done
    echo "$name: $*" >>"$room/crates.txt"
    (cd "$room/crates/$name" && rt run >"$room/run.txt" 2>&1) || { cat "$room/run.txt" >&2; exit 1; }
    program="$room/crates/$name/out/$name"
}

# The line that the program prints with these words, the seconds, and the most memory that it held.
timed() {
    /usr/bin/time -f '%e seconds, at most %M KiB' -o "$room/time" "$program" "$@" >"$room/line"
    echo "$(cat "$room/line"), $(tail -n 1 "$room/time")"
}
