#!/usr/bin/env bash
# How long datagrams take both ways: 10,000 decodings and encodings of a Submit, and 100 of a Phase1B with 1 to 32 votes, each
# vote's value full, so that the last is the largest datagram, 28,575 bytes. Each is the shortest of five measurements. The
# program stands in a temporary folder beside the crates that it needs, is proved there and run. The time of a byte says whether
# anything is quadratic.
set -euo pipefail

here=$(cd "$(dirname "$0")/.." && pwd)
work=$(mktemp -d)
trap 'rm -rf "$work"' EXIT

mkdir -p "$work/crates/wire_bench/src"
for crate in cx_base cx_wire cx_field cx_letter cx_msg; do
    cp -r "$here/crates/$crate" "$work/crates/$crate"
done
grep -E '^(cx_base|cx_wire|cx_field|cx_letter|cx_msg):' "$here/crates.txt" > "$work/crates.txt"
echo 'wire_bench: cx_base cx_msg' >> "$work/crates.txt"

cat > "$work/crates/wire_bench/src/main.rt" <<'RATTLE'
//! How long datagrams take both ways.
#![tactic(auto)]

use cx_msg::{Datagram, decode, encode_into};
use std::alloc::{AllocError, Global};
use std::io;
use std::rt::Clock;
use std::time::{Duration, Instant};

// Put a 1, number 1 of client 0.
const SUBMIT: [u8; 27] = [
    0x43, 0x58, 1, 1, 1, 0, 0, 2, 0, 0, 0, 15, 0, 0, 0, 0, 0, 0, 0, 0, 0, 1, 1, 1, 0x61, 1, 0x31,
];

const ROUND: [u8; 10] = [0, 0, 0, 1, 0, 0, 0, 0, 0, 0];

// A Phase1B with so many votes, each for eight commands with the longest key and text.
fn phase1b(alloc: Global, votes: u8) -> Result<Vec<u8>, AllocError> {
    let mut bytes = Vec::new(alloc);
    bytes.extend_from_slice(&[0x43, 0x58, 1, 8, 5, 0, 0, 3, 0, 0])?;
    let said = 892_u16.wrapping_mul(votes as u16).wrapping_add(19);
    bytes.extend_from_slice(&said.to_be_bytes())?;
    bytes.extend_from_slice(&ROUND)?;
    bytes.extend_from_slice(&[0; 8])?;
    bytes.push(votes)?;
    for slot in 0..votes {
        bytes.extend_from_slice(&ROUND)?;
        bytes.extend_from_slice(&[0, 0, 0, 0, 0, 0, 0, slot, 1, 8])?;
        for _ in 0..8 {
            bytes.extend_from_slice(&[0, 0, 0, 0, 0, 0, 0, 0, 0, 1, 1, 32])?;
            bytes.extend_from_slice(&[b'k'; 32])?;
            bytes.push(64)?;
            bytes.extend_from_slice(&[b't'; 64])?;
        }
    }
    Ok(bytes)
}

// How long so many decodings take, and the last datagram.
fn decodings(
    rt: &impl Clock,
    alloc: Global,
    bytes: &[u8],
    times: u32,
) -> io::Result<(Duration, Option<Datagram>)> {
    let mut last = None;
    let start = Instant::now(rt)?;
    for _ in 0..times {
        last = decode(alloc, bytes).ok();
    }
    Ok((start.elapsed(rt)?, last))
}

// How long so many encodings take, and how many bytes came of them.
fn encodings(
    rt: &impl Clock,
    alloc: Global,
    datagram: &Datagram,
    times: u32,
) -> io::Result<(Duration, usize)> {
    let mut len = 0_usize;
    let start = Instant::now(rt)?;
    for _ in 0..times {
        let mut out = Vec::new(alloc);
        if encode_into(alloc, datagram, &mut out).is_ok() {
            len = len.wrapping_add(out.len());
        }
    }
    Ok((start.elapsed(rt)?, len))
}

// Prints the shortest of five measurements of each.
fn tell(
    rt: &(impl Clock + Print),
    alloc: Global,
    name: &str,
    bytes: &[u8],
    times: u32,
) -> io::Result<()> {
    let all = (bytes.len() as u128).wrapping_mul(times as u128);
    let mut reading = Duration::MAX;
    let mut writing = Duration::MAX;
    for _ in 0..5 {
        let (took, last) = decodings(rt, alloc, bytes, times)?;
        reading = reading.min(took);
        let Some(datagram) = last else {
            return println!(rt; "{name}: no datagram");
        };
        let (took, len) = encodings(rt, alloc, &datagram, times)?;
        writing = writing.min(took);
        if all == 0 || len as u128 != all {
            return println!(rt; "{name}: other bytes");
        }
    }
    if all == 0 {
        return Ok(());
    }
    let read = reading.as_nanos().wrapping_mul(1000) / all;
    let written = writing.as_nanos().wrapping_mul(1000) / all;
    println!(rt; "{name} of {} bytes, {times} times: decoded in {reading:?}, {read} ps a byte; encoded in {writing:?}, {written} ps a byte", bytes.len())
}

fn main(rt: HostRuntime) -> io::Result<()> {
    let alloc = rt.alloc();
    tell(&rt, alloc, "Submit", &SUBMIT, 10_000)?;
    for votes in [1, 2, 4, 8, 16, 32] {
        let bytes = phase1b(alloc, votes)?;
        tell(&rt, alloc, "Phase1B", &bytes, 100)?;
    }
    Ok(())
}
RATTLE

cd "$work/crates/wire_bench"
rt run 2> "$work/log" || { tail -40 "$work/log" >&2; exit 1; }
