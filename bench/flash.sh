#!/bin/bash
# Times streaming and installing an image of 16 MiB on a module's board in memory, against one SHA-256 pass over the same
# octets, with the most memory that the process held; and opening a store of 64 packages. What the board alone costs, its
# cells and their copy for a power cut, is shown first.
cd "$(dirname "$0")/.."
. bench/built.sh

# The rows of the store know how to install: their file stands beside the program's own.
mkdir -p "$room/crates/flash/src"
for part in specs proofs; do
    cp -r "crates/store_rows/$part" "$room/crates/flash/$part"
done
cp crates/store_rows/src/run.rt "$room/crates/flash/src/run.rt"
grep -rl store_rows "$room/crates/flash" | xargs sed -i 's/store_rows/flash/g'

build flash bank_gate bank_layout bank_store block_pool config_table content_stream der_core edge_board module_record \
    module_store package_attrs recipe_text sha2 <<'RATTLE'
//! Makes a module's board, and streams, installs and opens on it.
#![tactic(auto)]

mod run;

use bank_store::format;
use edge_board::MemBoard;
use module_store::open;
use recipe_text::read_module_recipe;
use run::install_image;
use sha2::{Digest, Sha256};
use std::alloc::{AllocError, Global};
use std::env;
use std::io;

const RECIPE: &[u8] = b"hwtype 1.2.3\nserial 0001\ncapacity 4096\n\
    key H5 W4 0101010101010101010101010101010101010101010101010101010101010101 01010101010101010101010101010101\n\
    anchor root a1 00000001000000050000000301010101010101010101010101010101\
    66bf6f5816eee4bbf33c50acb480e09b4169ebb533372959bc4315c388e501ac -\n";

// 16 MiB of octets A5.
fn image(alloc: Global) -> Result<Vec<u8>, AllocError> {
    vec![in alloc; 0xa5; 16_777_216]
}

// A board of a module whose installed images may have 4,096 blocks. None where it can't be made.
fn board(alloc: Global) -> Option<MemBoard> {
    let Ok(owner) = read_module_recipe(alloc, RECIPE) else {
        return None;
    };
    let mut board = MemBoard::new(alloc, 8276, Vec::new(alloc), 100_000, 20_000_000).ok()?;
    format(alloc, &mut board, &owner).ok()?;
    Some(board)
}

// What is done by this name. None where it fails.
fn done(alloc: Global, word: &str) -> Option<&'static str> {
    let octets = image(alloc).ok()?;
    if word == "hash" {
        let digest = Sha256::digest(&octets);
        return if digest[0] == 0 { None } else { Some("hashed") };
    }
    let mut board = board(alloc)?;
    if word == "install" && octets.len() <= 16_777_216 {
        install_image(alloc, &mut board, 1, 1, &octets).ok()?;
        return Some("streamed and installed");
    }
    Some("a board")
}

// Opens a store of 64 packages so many times.
fn opened(alloc: Global, times: u32) -> Option<&'static str> {
    let mut board = board(alloc)?;
    for id in 1..65u8 {
        install_image(alloc, &mut board, id, 1, b"A").ok()?;
    }
    for _ in 0..times {
        open(alloc, &mut board).ok()?;
    }
    Some("opened")
}

fn main(rt: HostRuntime) -> io::Result<()> {
    let alloc = rt.alloc();
    let mut answer = None;
    for word in env::args(&rt)?.skip(1) {
        answer = if word.as_str() == "open" {
            opened(alloc, 101)
        } else if word.as_str() == "open-once" {
            opened(alloc, 1)
        } else {
            done(alloc, &word)
        };
    }
    match answer {
        Some(what) => println!(rt; "{what}")?,
        None => println!(rt; "failed")?,
    }
    Ok(())
}
RATTLE
echo "the board and the octets: $(timed board)"
echo "the octets, and one pass over them: $(timed hash)"
echo "all of that, a stream and an install: $(timed install)"
echo "64 installs, and 1 opening: $(timed open-once)"
echo "64 installs, and 101 openings: $(timed open)"
