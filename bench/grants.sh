#!/bin/bash
# Times what content constraints of 100,000 listed values permit of an attribute of 100,000 values, with
# the most memory that the process held.
cd "$(dirname "$0")/.."
. bench/built.sh

build permit attribute_set cert_fields constraint_meet der_core <<'RATTLE'
//! Asks what constraints of many listed values permit.
#![tactic(auto)]

use attribute_set::read_attribute_set;
use cert_fields::read_ccc;
use constraint_meet::{grant_of, permits};
use der_core::read_oid;
use std::alloc::{AllocError, Global};
use std::io;

// 1.2.840.113549.1.9.16.1.16, id-ct-firmwarePackage.
const PACKAGE: &[u8] = b"\x2a\x86\x48\x86\xf7\x0d\x01\x09\x10\x01\x10";

// What stands before 100,000 values of 6 octets: constraints with one entry and one constrained
// attribute of type 1.2.3, and an attribute of that type.
const CONSTRAINTS: &[u8] = b"\x30\x83\x09\x27\xe5\x30\x83\x09\x27\xe0\x06\x0b\x2a\x86\x48\x86\xf7\x0d\x01\x09\x10\x01\x10\
    \x30\x83\x09\x27\xce\x30\x83\x09\x27\xc9\x06\x02\x2a\x03\x31\x83\x09\x27\xc0";

const ATTRIBUTE: &[u8] = b"\x30\x83\x09\x27\xc9\x06\x02\x2a\x03\x31\x83\x09\x27\xc0";

// 100,000 octet strings, one after the other, in no order.
fn with_values(alloc: Global, head: &[u8]) -> Result<Vec<u8>, AllocError> {
    let mut octets = Vec::with_capacity(alloc, 600_100)?;
    octets.extend_from_slice(head)?;
    for number in 0..100_000u32 {
        octets.extend_from_slice(b"\x04\x04")?;
        octets.extend_from_slice(&number.wrapping_mul(2_654_435_761).to_be_bytes())?;
    }
    Ok(octets)
}

fn answer(alloc: Global) -> Result<Option<bool>, AllocError> {
    let constraints = with_values(alloc, CONSTRAINTS)?;
    let attributes = with_values(alloc, ATTRIBUTE)?;
    let (Some(ccc), Some(attributes), Some(content)) = (
        read_ccc(alloc, &constraints)?,
        read_attribute_set(alloc, &attributes)?,
        read_oid(PACKAGE),
    ) else {
        return Ok(None);
    };
    let grant = grant_of(alloc, &ccc)?;
    Ok(Some(permits(&grant, &content, &attributes)))
}

fn main(rt: HostRuntime) -> io::Result<()> {
    match answer(rt.alloc()) {
        Ok(Some(true)) => println!(rt; "permitted")?,
        Ok(Some(false)) => println!(rt; "not permitted")?,
        _ => println!(rt; "not read")?,
    }
    Ok(())
}
RATTLE
echo "100,000 values against 100,000 listed ones: $(timed)"
