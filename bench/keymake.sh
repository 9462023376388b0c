#!/bin/bash
# Times the making of a public key with H10 and W8, and prints the blocks of SHA-256 a second that it
# makes beside those of the kit's own sha2 on single blocks. Both programs are built for it, on copies.
cd "$(dirname "$0")/.."
. bench/blocks.sh

# 1,024 leaves with 34 chains of 255 steps and a secret each: one block a hash
blocks=$((1024 * 34 * 256))

build make_key lms_sign lms_verify <<'RATTLE'
//! Makes a public key with H10 and W8.
#![tactic(auto)]

use lms_sign::{SignKey, public};
use lms_verify::{LmsKind, OtsKind};
use std::io;

fn main(rt: HostRuntime) -> io::Result<()> {
    let key = public(&SignKey {
        seed: [1; 32],
        id: [1; 16],
        kind: LmsKind::H10,
        ots: OtsKind::W8,
    });
    println!(rt; "{}", key.top.root[0])?;
    Ok(())
}
RATTLE
echo "a key with H10 and W8: $(rate_of "$program" $blocks) thousand blocks a second ($blocks blocks)"
echo "sha2 alone: $(rate_of_sha2 $blocks) thousand blocks a second"
