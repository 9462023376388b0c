#!/bin/bash
# Times `explain` over packages, with the most memory that the process held: a plain package with an image of 16 MiB, one
# under eight certificates, two items whose frame is as long as a frame may be and of which much is read before they are
# refused, and packages whose certificates list identifiers, hardware types, and values for any content beside many content
# types, some 1 MB of them, with their signature and with a wrong one. It needs the built program (./demo builds it), GNU
# time and perl.
cd "$(dirname "$0")/.."
. bench/program.sh

key="key H10 W4 $(printf '01%.0s' {1..32}) $(printf '01%.0s' {1..16})"
read -r _ public _ < <(printf '%s\n' "$key" | "$program" "$room/key" key-new)
printf 'hwtype 1.2.3\nserial 0001\ncapacity 4096\n%s\nanchor k0 a0 %s -\n' "$key" "$public" |
    "$program" "$room/module" make >"$room/made"

# The line of the certificate of key identifier A and this digit, signed by the one of the digit before, with these
# constraints, in hex. That of the second digit is the signer's.
certificate() {
    local ca='ca -' constraints=${3:-300f300d060b2a864886f70d0109100110}
    [ "$1" = "$2" ] && ca='# the signer'
    printf 'serial 0%s\nissuer k%s\nsubject k%s\nfrom 20200101000000\nto 20491231235959\npublic %s\nsubjectkey a%s\nauthoritykey a%s\n%s\nusage both\nconstraint %s\n' \
        "$1" "$(($1 - 1))" "$1" "$public" "$1" "$(($1 - 1))" "$ca" "$constraints" |
        "$program" "$room/key" issue >"$room/der"
    echo "certificate $(od -An -v -tx1 "$room/der" | tr -d ' \n')"
}

# A package whose image has so many octets, signed by this key identifier, with the lines that follow.
package() {
    local size=$1 signer=$2
    shift 2
    {
        printf 'package 1.2.3.1 7\ntarget 1.2.3\nsigner %s\nwrap\nimage ' "$signer"
        perl -e 'print "a5" x $ARGV[0], "\n"' "$size"
        printf '%s\n' "$@"
    } | "$program" "$room/key" pack >"$room/package"
}

# An item that is a package of one octet but for its certificates and its signed attributes, which come as Perl's text: it is
# made anew around them.
odd() {
    perl -e '
        sub len { my $n = length $_[0]; $n < 128 ? chr $n : do { my $s = pack "N", $n; $s =~ s/^\0+//; chr(128 + length $s) . $s } }
        sub tlv { chr($_[0]) . len($_[1]) . $_[1] }
        my ($certificates, $attributes) = (eval $ARGV[0], eval $ARGV[1]);
        my $sha = tlv(0x30, "\x06\x09\x60\x86\x48\x01\x65\x03\x04\x02\x01");
        my $lms = tlv(0x30, "\x06\x0b\x2a\x86\x48\x86\xf7\x0d\x01\x09\x10\x03\x11");
        my $content = tlv(0x30, "\x06\x0b\x2a\x86\x48\x86\xf7\x0d\x01\x09\x10\x01\x10" . tlv(0xa0, tlv(4, "A")));
        my $signer = tlv(0x30, "\x02\x01\x03" . tlv(0x80, "\xa0") . $sha . tlv(0xa0, $attributes) . $lms . tlv(4, "x"));
        my $data = tlv(0x30, "\x02\x01\x03" . tlv(0x31, $sha) . $content . tlv(0xa0, $certificates) . tlv(0x31, $signer));
        print tlv(0x30, "\x06\x09\x2a\x86\x48\x86\xf7\x0d\x01\x07\x02" . tlv(0xa0, $data));
    ' "$1" "$2" >"$room/package"
}

# Content constraints in hex, from Perl's list of their entries. Of a number, `oid` is an identifier, `id` an identifier of a
# package in a version, and `types` a value with these hardware types; `subsets` are those of so many of the numbers 1 to 16.
constraints() {
    perl -e '
        sub len { my $n = length $_[0]; $n < 128 ? chr $n : do { my $s = pack "N", $n; $s =~ s/^\0+//; chr(128 + length $s) . $s } }
        sub tlv { chr($_[0]) . len($_[1]) . $_[1] }
        sub oid { tlv(6, "\x2a\x03" . pack "w", $_[0]) }
        sub id { tlv(0x30, tlv(0x30, oid($_[0]) . tlv(2, chr $_[1]))) }
        sub types { tlv(0x30, join "", map oid($_), @_) }
        sub values_of { my $type = shift; tlv(0x30, tlv(0x30, $type . tlv(0x31, join "", @_))) }
        sub entry { tlv(0x30, join "", @_) }
        sub subsets {
            my ($left, $from) = @_;
            $left ? map { my $first = $_; map [$first, @$_], subsets($left - 1, $first + 1) } $from .. 17 - $left : [];
        }
        my $smime = "\x2a\x86\x48\x86\xf7\x0d\x01\x09\x10";
        my ($any, $package) = (tlv(6, "$smime\x01\x00"), tlv(6, "$smime\x01\x10"));
        my $target = tlv(0x30, "\x06\x02\x2a\x03");
        my ($identifiers, $hardware) = (tlv(6, "$smime\x02\x23"), tlv(6, "$smime\x02\x24"));
        print unpack "H*", tlv(0x30, join "", eval $ARGV[0]);
    ' "$1"
}

# A package under a certificate with each of these constraints, that of the signer last.
listed() {
    local place path=()
    for ((place = $#; place > 0; place--)); do
        path+=("$(certificate "$place" $# "$(constraints "${!place}")")")
    done
    package 1 "a$#" "${path[@]}"
}

told() {
    echo "$1 ($(stat -c %s "$room/package") octets): $(measured "$room/package" "$room/module" explain 20300101000000)"
    tail -n 1 "$room/lines"
}

# The same, and once more with another last octet, which is the signature's.
told_twice() {
    told "$1"
    perl -e 'open my $f, "+<", $ARGV[0]; seek $f, -1, 2; read $f, my $octet, 1; seek $f, -1, 2; print $f $octet ^ "\1"' "$room/package"
    told "$1, with a wrong signature"
}

package 16777216 a0
told 'an image of 16 MiB'
mapfile -t path < <(for place in 8 7 6 5 4 3 2 1; do certificate "$place" 8; done)
package 1 a8 "${path[@]}"
told 'a path of eight certificates'
odd '"\xa3\x02\x05\x00" x 250_000' '""'
told '250,000 certificates of another kind'
odd '""' 'join "", map { tlv(0x30, "\x06\x04\x2a" . chr(128 + ($_ >> 14)) . chr(128 + (($_ >> 7) & 127)) . chr($_ & 127) .
    "\x31\x00") } 16_384 .. 116_383'
told '100,000 attributes'
for count in 8000 16000 34000; do
    listed "entry(\$package, values_of(\$identifiers, map id(\$_, 1), 1 .. $count))" \
        "entry(\$package, values_of(\$identifiers, map id(\$_, 2), 1 .. $count))"
    told_twice "two certificates with $count package identifiers each"
    listed "entry(\$package, values_of(\$hardware, \$target, map types(\$_), 1 .. $count))" \
        "entry(\$package, values_of(\$hardware, \$target, map types(2 * \$_, 2 * \$_ + 1), 1 .. $count))"
    told_twice "the same with hardware types, one and two in a value"
done
listed 'entry($package, values_of($hardware, $target, map types(@$_), (subsets(8, 1))[0 .. 5_999]))' \
    'entry($package, values_of($hardware, $target, map types(@$_), (subsets(7, 1))[0 .. 5_999]))'
told_twice '6,000 values of eight of 16 hardware types, and 6,000 of seven'
listed 'map(entry(oid($_)), 1 .. 20_000), entry($any)' \
    'entry($package), entry($any, values_of(oid(1), map tlv(4, pack "n", $_), 1 .. 500))'
told_twice '20,000 content types, and 500 values for any content'
listed 'map(entry(oid($_)), 1 .. 20_000), entry($any)' \
    'entry($any, values_of(oid(1), map tlv(4, pack "N", 2 * $_), 1 .. 50_000))' \
    'entry($any, values_of(oid(1), map tlv(4, pack "N", 2 * $_ + 1), 1 .. 50_000))'
told_twice '20,000 content types, and 50,000 values for any content in each of two lists that share none'
