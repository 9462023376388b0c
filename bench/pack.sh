#!/bin/bash
# Times `pack` over recipes of images of 4, 8 and 16 MiB in HEX, with the most memory that the process held. It needs
# the built program (./demo builds it), GNU time and perl.
cd "$(dirname "$0")/.."
. bench/program.sh

printf 'key H5 W4 %s %s\n' "$(printf '01%.0s' {1..32})" "$(printf '01%.0s' {1..16})" |
    "$program" "$room/flash" key-new >"$room/key"
for size in 4 8 16; do
    {
        printf 'package 1.2.3.1 7\ntarget 1.2.3\nsigner A1\nwrap\nimage '
        perl -e 'print "a5" x ($ARGV[0] << 20), "\n"' "$size"
    } >"$room/recipe"
    echo "an image of $size MiB: $(measured "$room/recipe" "$room/flash" pack)"
    echo "$(stat -c %s "$room/lines") octets"
done
