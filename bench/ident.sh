#!/bin/bash
# Times `ident`: identifiers of 16, 32 and 64 octets, and inputs of 2^24, 2^25 and 2^26 octets, with
# the most memory that the process held. It needs the built program (./demo builds it) and GNU time.
cd "$(dirname "$0")/.."
. bench/program.sh
runs=200

# An identifier of so many octets, with a legacy name.
legacy() {
    printf "\\x30\\x$(printf %02x $(($1 - 2)))\\x04\\x$(printf %02x $(($1 - 4)))"
    head -c $(($1 - 4)) /dev/zero | tr '\0' A
}

for size in 16 32 64; do
    legacy $size >"$room/input"
    began=$(date +%s%N)
    for _ in $(seq $runs); do
        "$program" flash ident <"$room/input" >"$room/line"
    done
    took=$((($(date +%s%N) - began) / runs / 1000))
    echo "an identifier of $size octets: $took microseconds a run, with the start of the process"
done

for power in 24 25 26; do
    head -c $((2 ** power)) /dev/zero >"$room/input"
    echo "an input of 2^$power octets, $((2 ** (power - 10))) KiB: $(measured "$room/input" flash ident)"
done
