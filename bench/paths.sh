#!/bin/bash
# Times the choice of a path among 20,000 certificates, some 1.3 MiB: where none is the signer's, where the last
# is and stands below the anchor, and where the last eight are a path. With the most memory that the process
# held. Then what constraints permit, by bench/grants.sh.
cd "$(dirname "$0")/.."
. bench/built.sh

build choose cert_fields der_core path_check <<'RATTLE'
//! Chooses a path among many certificates. The word says how many of the last are a path.
#![tactic(auto)]

use cert_fields::{Anchor, KeptCert, Sid};
use der_core::{Cursor, Octets64};
use path_check::{FindFault, find_path};
use std::alloc::{AllocError, Global};
use std::env;
use std::io;

const COUNT: u32 = 20_000;

// What the anchor is called, and a name that no certificate has.
const ANCHOR: u32 = 0x7f_0000;

const NOBODY: u32 = 0x7e_0000;

// The year 2025, the key and what stands behind the signed part, all as small as can be.
const VALIDITY: &[u8] = b"\x30\x1e\x17\x0d250101000000Z\x17\x0d251231235959Z";

const KEY: &[u8] = b"\x30\x05\x30\x00\x03\x01\x00";

const BEHIND: &[u8] = b"\x30\x00\x03\x01\x00";

// A name that is a number.
fn name(number: u32) -> [u8; 7] {
    let [_, a, b, c] = number.to_be_bytes();
    [0x30, 0x05, 0x0c, 0x03, a, b, c]
}

fn put_cert(out: &mut Vec<u8>, number: u32, issuer: u32) -> Result<(), AllocError> {
    let [_, a, b, c] = number.to_be_bytes();
    out.extend_from_slice(&[0x30, 0x43, 0x30, 0x3c, 0x02, 0x03, 0x40 | a, b, c, 0x30, 0x00])?;
    out.extend_from_slice(&name(issuer))?;
    out.extend_from_slice(VALIDITY)?;
    out.extend_from_slice(&name(number))?;
    out.extend_from_slice(KEY)?;
    out.extend_from_slice(BEHIND)
}

// The issuer of a certificate, where so many of the last are a path.
fn issuer_of(number: u32, chain: u32) -> u32 {
    if number < COUNT.saturating_sub(chain) {
        NOBODY
    } else if number == COUNT - 1 {
        ANCHOR
    } else {
        number.saturating_add(1)
    }
}

fn certificates(alloc: Global, chain: u32) -> Result<Vec<u8>, AllocError> {
    let mut octets = Vec::with_capacity(alloc, 1_380_000)?;
    for number in 0..COUNT {
        put_cert(&mut octets, number, issuer_of(number, chain))?;
    }
    Ok(octets)
}

fn kept(alloc: Global, octets: &[u8]) -> Result<Vec<KeptCert<'_>>, AllocError> {
    let mut certs = Vec::new(alloc);
    let mut items = Cursor::new(octets);
    for _ in 0..COUNT {
        let Some((_, _, whole)) = items.next() else {
            break;
        };
        let Some(cert) = KeptCert::new(whole) else {
            break;
        };
        certs.reserve(1)?;
        certs.push_reserved(cert);
    }
    Ok(certs)
}

fn anchor(alloc: Global) -> Result<Option<Anchor>, AllocError> {
    let mut subject = Vec::new(alloc);
    subject.extend_from_slice(&name(ANCHOR))?;
    let Some(key_id) = Octets64::new(b"R") else {
        return Ok(None);
    };
    Anchor::new(alloc, subject, key_id, [0; 60], None)
}

// How many certificates there are, and how many members the path has.
fn answer(alloc: Global, chain: u32) -> Result<(usize, Option<usize>), AllocError> {
    let octets = certificates(alloc, chain)?;
    let certs = kept(alloc, &octets)?;
    let Some(anchor) = anchor(alloc)? else {
        return Ok((0, None));
    };
    let first = COUNT.saturating_sub(chain);
    let [_, a, b, c] = first.to_be_bytes();
    let sid = Sid::Serial {
        issuer: &name(issuer_of(first, chain)),
        serial: &[0x40 | a, b, c],
    };
    match find_path(alloc, &sid, &certs, &[anchor]) {
        Ok(path) => Ok((certs.len(), Some(path.members.len()))),
        Err(FindFault::NoAnchor) => Ok((certs.len(), None)),
        Err(FindFault::Memory) => Err(AllocError),
    }
}

fn main(rt: HostRuntime) -> io::Result<()> {
    let chain = match env::args(&rt)?.skip(1).next() {
        Some(word) => word.as_str().parse::<u32>().unwrap_or(0),
        None => 0,
    };
    match answer(rt.alloc(), chain) {
        Ok((count, Some(members))) => println!(rt; "{count} certificates, a path of {members}")?,
        Ok((count, None)) => println!(rt; "{count} certificates, no path")?,
        Err(_) => println!(rt; "no memory")?,
    }
    Ok(())
}
RATTLE
for chain in 0 1 8; do
    timed "$chain"
done
bench/grants.sh
