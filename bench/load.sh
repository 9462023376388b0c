#!/bin/bash
# Times `load` over a flash in a file, with the most memory that the process held: 64 packages of 16 MiB, 1 GiB in all,
# from a pipe, wrapped and bare, beside one SHA-256 pass of the kit's own sha2 over the same octets; 64 small ones; what is
# refused for its form, long and short; and answers that are signed. Times are the processor's. It needs the built program
# (./demo builds it), GNU time and perl.
cd "$(dirname "$0")/.."
. bench/built.sh

# The program that reads the input as `load` does, and hashes it.
build hash edge_board sha2 <<'RATTLE'
//! Hashes the input.
#![tactic(auto)]

use edge_board::{Source, StdSource};
use sha2::{Digest, Sha256};
use std::io;

fn main(rt: HostRuntime) -> io::Result<()> {
    let mut source = StdSource::new(&rt);
    let mut hasher = Sha256::new();
    let mut piece = [0; 65_536];
    for _ in 0..u64::MAX {
        match source.read(&mut piece) {
            Ok(0) | Err(_) => break,
            Ok(count) => hasher.update(&piece[..count]),
        }
    }
    let digest = hasher.finalize();
    println!(rt; "{}", digest[0])
}
RATTLE
hash=$program
. bench/program.sh

octets() {
    printf "$1%.0s" $(seq "$2")
}
key="key H5 W4 $(octets 01 32) $(octets 01 16)"
read -r _ public _ < <(printf '%s\n' "$key" | "$program" "$room/key" key-new)
printf 'hwtype 1.2.3\nserial 0001\ncapacity 4096\nkey H10 W4 %s %s\nanchor root a1 %s -\n' \
    "$(octets 02 32)" "$(octets 02 16)" "$public" | "$program" "$room/module" make >"$room/made"

# A package for this hardware, of this name, with an image of so many octets, and the lines that follow. Each is signed with
# the key's first leaf.
package() {
    local hardware=$1 id=$2 size=$3
    shift 3
    cp "$room/key" "$room/once"
    {
        printf 'package 1.2.3.%s 7\ntarget %s\nsigner a1\nimage ' "$id" "$hardware"
        perl -e 'print "a5" x $ARGV[0], "\n"' "$size"
        printf '%s\n' "$@"
    } | "$program" "$room/once" pack
}

# The processor time of what follows over the input, in milliseconds, and the most memory that it held, in KiB.
ran() {
    /usr/bin/time -f '%U %S %M' -o "$room/time" "$@" >"$room/out" || true
    tail -n 1 "$room/time" | perl -ane 'printf "%d %d\n", 1000 * ($F[0] + $F[1]), $F[2]'
}
loaded() {
    cp "$room/module" "$room/flash"
    ran "$program" "$room/flash" load 20300101000000
}
repeated() {
    local n
    for ((n = 0; n < $2; n++)); do cat "$1"; done
}

# The octets that the words behind the name write, from a pipe. The processor time stays in `time`.
told() {
    local name=$1 most
    shift
    read -r time most < <("$@" | loaded)
    echo "$name: $time ms, at most $most KiB; $(stat -c %s "$room/out") octets of answers;" \
        "$("$program" "$room/flash" list | sed -n '2,3p' | paste -sd ' ')"
}

# The quotient of two numbers, with two decimals.
quotient() {
    perl -e 'printf "%.2f", $ARGV[0] / $ARGV[1]' "$1" "$2"
}

# 1 GiB of packages, beside one pass over it: 2.5 passes are the bar, and 3 MB
package 1.2.3 1 16777216 wrap >"$room/wrapped"
package 1.2.3 1 16777216 >"$room/bare"
read -r pass _ < <(repeated "$room/wrapped" 64 | ran "$hash")
echo "one pass over 64 packages of 16 MiB: $pass ms"
told '64 packages of 16 MiB, wrapped' repeated "$room/wrapped" 64
echo "that is $(quotient "$time" "$pass") passes"
told '64 packages of 16 MiB, bare' repeated "$room/bare" 64
echo "that is $(quotient "$time" "$pass") passes"
for id in {1..64}; do package 1.2.3 "$id" 5; done >"$room/small"
told '64 packages of 5 octets, each installed' cat "$room/small"

# items without a head, which are kept whole: the longest, one that is longer and so isn't kept, and what is no element;
# 40 MB are the bar
element() {
    perl -e 'print "\x30\x84", pack("N", $ARGV[0]), "\0" x $ARGV[0]' "$1"
}
element 17825792 >"$room/longest"
element 17825793 >"$room/longer"
told '16 elements of 17,825,792 octets without a head' repeated "$room/longest" 16
told '16 elements of one octet more' repeated "$room/longer" 16
told '1 GiB that is no element' head -c 1073741824 /dev/zero

# small items that are refused: 50,000 a second are the bar
told '250,000 empty elements' perl -e 'print "\x30\x00" x 250_000'
echo "that is $((250000 * 1000 / time)) a second"

# refusals, of which one for a signature that doesn't hold isn't signed, and one for other hardware is: the first that is
# signed computes the nodes of the key's tree
package 1.2.4 1 1 >"$room/other"
perl -0777 -pe 'substr($_, -1) ^= "\1"' "$room/other" >"$room/bent"
told '1,001 packages with another signature' repeated "$room/bent" 1001
unsigned=$time
told '1 package for other hardware' repeated "$room/other" 1
first=$time
told '1,001 packages for other hardware' repeated "$room/other" 1001
echo "that is $(quotient $((time - first)) 1000) ms for each after the first, of which its judgement" \
    "takes $(quotient "$unsigned" 1001) ms"
