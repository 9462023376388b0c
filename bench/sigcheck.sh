#!/bin/bash
# Times `sigcheck` over many runs, and prints the blocks of SHA-256 a second that its checks make beside
# those of the kit's own sha2 on single blocks. It needs the built program (./demo builds it).
cd "$(dirname "$0")/.."
. bench/program.sh
. bench/blocks.sh
runs=1000

# two signatures with H5 and W8: 2 * 34 chains, and a few blocks more for messages and trees
printf "$(sed 's/../\\x&/g' examples/two_levels.hex | tr -d '\n')" >"$room/signed"
printf '\x30\x00' >"$room/empty"

# microseconds that so many runs over a file take
time_of() {
    local began
    began=$(date +%s%N)
    for _ in $(seq $runs); do
        "$program" flash sigcheck <"$1" >"$room/line" || true
    done
    echo $((($(date +%s%N) - began) / 1000))
}

# The steps of the chains in the signatures, counted by their digits: what is left of each to 255.
steps=$(python3 - "$room/signed" <<'PYTHON'
import hashlib, sys
text = open(sys.argv[1], 'rb').read()
key, message, signature = text[6:66], text[68:76], text[80:]
size = 4 + 4 + 32 + 34 * 32 + 4 + 5 * 32

def steps(id, signature, message):
    value = hashlib.sha256(id + signature[:4] + b'\x81\x81' + signature[8:40] + message).digest()
    checksum = sum(255 - digit for digit in value)
    return sum(255 - digit for digit in value + checksum.to_bytes(2, 'big'))

first, lower, last = signature[4:4 + size], signature[4 + size:60 + size], signature[60 + size:]
print(steps(key[12:28], first, lower) + steps(lower[8:24], last, message))
PYTHON
)
empty=$(time_of "$room/empty")
signed=$(time_of "$room/signed")
echo "sigcheck: $((runs * steps * 1000 / (signed - empty))) thousand chain steps a second" \
    "($steps of one block each in a run; the start of the process is taken off)"
echo "sha2 alone: $(rate_of_sha2 4000000) thousand blocks a second"
