# How many blocks of SHA-256 a second makes. Source it after `cd` to the top of the repository.
. bench/built.sh

# Thousand blocks a second of the program, which makes so many.
rate_of() {
    local began
    began=$(date +%s%N)
    "$1" >"$room/line"
    echo $(($2 * 1000000 / ($(date +%s%N) - began)))
}

# The same of the kit's own sha2, by a program that is built for it.
rate_of_sha2() {
    build one_block sha2 <<RATTLE
//! Single blocks of SHA-256: 55 octets a digest.
#![tactic(auto)]

use sha2::{Digest, Sha256};
use std::io;

fn main(rt: HostRuntime) -> io::Result<()> {
    let mut input = [7u8; 55];
    for _ in 0..$1u32 {
        let digest = Sha256::digest(&input);
        input[23..].copy_from_slice(&digest);
    }
    println!(rt; "{}", input[30])?;
    Ok(())
}
RATTLE
    rate_of "$program" "$1"
}
