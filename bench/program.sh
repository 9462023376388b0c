# What the scripts begin with that run the built program. Source it after `cd` to the top of the repository. It
# needs GNU time.
. bench/room.sh
program=$PWD/crates/fwload/out/fwload
[ -x "$program" ] || { echo "bench: there is no $program; run ./demo first" >&2; exit 1; }

# The program over an input, with the words that follow: the seconds, and the most memory that it held.
measured() {
    local input=$1
    shift
    /usr/bin/time -f '%e seconds, at most %M KiB' -o "$room/time" \
        "$program" "$@" <"$input" >"$room/lines" || true
    tail -n 1 "$room/time"
}
