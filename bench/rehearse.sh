#!/bin/bash
# Times `rehearse` over one attribute set of 2^24, 2^25 and 2^26 octets, with the most memory that the
# process held: a package for as many hardware types as fit, one for as many serial numbers, and as
# many attributes of different types as fit. It needs the built program (./demo builds it), GNU time
# and perl.
cd "$(dirname "$0")/.."
. bench/program.sh

# The set, by the kind of what fills it and its size: perl writes the octets.
set_of() {
    perl -e '
        my ($kind, $size) = @ARGV;
        sub element {
            my ($tag, $contents) = @_;
            my $length = length $contents;
            my $octets = $length < 128 ? "" : pack("N", $length) =~ s/^\0+//r;
            my $head = $octets eq "" ? chr($length) : chr(128 + length $octets) . $octets;
            return chr($tag) . $head . $contents;
        }
        sub attribute { return element(0x30, element(6, $_[0]) . element(0x31, $_[1])) }
        my $pkcs_9 = pack("H*", "2a864886f70d0109");
        my $smime = $pkcs_9 . pack("H*", "1002");
        my $oid = element(6, pack("H*", "2a03"));
        my $content = attribute($pkcs_9 . chr(3), element(6, pack("H*", "2a864886f70d0109100110")));
        my $digest = attribute($pkcs_9 . chr(4), element(4, "\0" x 32));
        my $identifier = attribute($smime . chr(35), pack("H*", "300a300806032a0301020107"));
        my $targets = attribute($smime . chr(36), element(0x30, $oid));
        my $room = $size - 300;
        my $filled;
        if ($kind eq "targets") {
            my $list = element(0x30, element(6, chr(0x2a)) x ($room / 3));
            $filled = $content . $identifier . $digest . attribute($smime . chr(36), $list);
        } elsif ($kind eq "serials") {
            my $modules = element(0x30, $oid . element(0x30, element(5, "") x ($room / 2)));
            my $list = element(0x30, $modules);
            $filled = $targets . $content . $identifier . $digest . attribute($smime . chr(40), $list);
        } else {
            my $count = $room / 10;
            $filled = "";
            for my $n (0 .. $count - 1) {
                my $type = join "", map { chr(128 + ($n >> $_ & 127)) } (21, 14, 7);
                substr($type, 0, 1) = chr(129 + ($n >> 21 & 63));
                $filled .= attribute($type . chr($n & 127), "");
            }
        }
        print element(0x31, $filled);
    ' "$1" "$2"
}

for kind in targets serials attributes; do
    for power in 24 25 26; do
        set_of $kind $((2 ** power)) >"$room/input"
        size=$(stat -c %s "$room/input")
        echo "$kind in $((size / 1024)) KiB: $(measured "$room/input" flash rehearse 20250101000000)"
        tail -n 1 "$room/lines"
    done
done
