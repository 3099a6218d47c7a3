//! Flags, numbers of several widths, skips and seeks by hand, in safe Rust.

use std::hint::black_box;

pub fn flags_read(bytes: &[u8], out: &mut [[bool; 8]]) -> bool {
    if bytes.len() < out.len() {
        return false;
    }
    for (to, byte) in out.iter_mut().zip(bytes) {
        *to = std::array::from_fn(|i| byte >> (7 - i) & 1 != 0);
    }
    true
}

pub fn flags_write(from: &[[bool; 8]], out: &mut [u8]) -> bool {
    if out.len() < from.len() {
        return false;
    }
    for (to, flags) in out.iter_mut().zip(from) {
        *to = flags.iter().fold(0, |byte, flag| byte << 1 | *flag as u8);
    }
    true
}

pub fn ones_read(bytes: &[u8], out: &mut [[u8; 8]]) -> bool {
    if bytes.len() < out.len() {
        return false;
    }
    for (to, byte) in out.iter_mut().zip(bytes) {
        *to = std::array::from_fn(|i| byte >> (7 - i) & 1);
    }
    true
}

pub fn ones_write(from: &[[u8; 8]], out: &mut [u8]) -> bool {
    if out.len() < from.len() {
        return false;
    }
    for (to, ones) in out.iter_mut().zip(from) {
        if ones.iter().any(|one| *one > 1) {
            return false;
        }
        *to = ones.iter().fold(0, |byte, one| byte << 1 | one);
    }
    true
}

pub fn i24_read(bytes: &[u8], out: &mut [i32]) -> bool {
    let mut parts = bytes.chunks_exact(3);
    for to in out {
        let Some(b) = parts.next() else { return false };
        *to = i32::from_be_bytes([b[0], b[1], b[2], 0]) >> 8;
    }
    true
}

pub fn i24_write(from: &[i32], out: &mut [u8]) -> bool {
    let mut parts = out.chunks_exact_mut(3);
    for number in from {
        let Some(to) = parts.next() else { return false };
        if *number < -(1 << 23) || *number >= 1 << 23 {
            return false;
        }
        to.copy_from_slice(&number.to_be_bytes()[1..]);
    }
    true
}

pub fn i16_little_read(bytes: &[u8], out: &mut [i16]) -> bool {
    let mut parts = bytes.chunks_exact(2);
    for to in out {
        let Some(b) = parts.next() else { return false };
        *to = i16::from_le_bytes([b[0], b[1]]);
    }
    true
}

pub fn i16_little_write(from: &[i16], out: &mut [u8]) -> bool {
    let mut parts = out.chunks_exact_mut(2);
    for number in from {
        let Some(to) = parts.next() else { return false };
        to.copy_from_slice(&number.to_le_bytes());
    }
    true
}

// The eight bytes at a place, of which those behind the end are zeros.
#[inline(always)]
fn eight(bytes: &[u8], at: usize) -> u64 {
    match bytes[at..].first_chunk::<8>() {
        Some(b) => u64::from_be_bytes(*b),
        None => {
            let mut b = [0; 8];
            b[..bytes.len() - at].copy_from_slice(&bytes[at..]);
            u64::from_be_bytes(b)
        }
    }
}

/// Reads numbers of so many bits, more than 57 and at most 127, the high bit first: from 16 bytes and one more.
#[inline(always)]
pub fn long_read<const BITS: usize, T>(bytes: &[u8], out: &mut [T], made: impl Fn(u128) -> T) -> bool {
    if 8 * bytes.len() < BITS * out.len() {
        return false;
    }
    for (i, to) in out.iter_mut().enumerate() {
        let (at, bit) = (BITS * i / 8, BITS * i % 8);
        let high = eight(bytes, at) as u128;
        let low = eight(bytes, (at + 8).min(bytes.len())) as u128;
        let last = bytes.get(at + 16).copied().unwrap_or(0) as u128;
        let all = (high << 64 | low) << bit | last << bit >> 8;
        *to = made(all >> (128 - BITS));
    }
    true
}

// Bits that are held until there are 64 of them.
struct Joined<'a> {
    words: std::slice::ChunksExactMut<'a, u8>,
    held: u64,
    have: usize,
}

impl Joined<'_> {
    // So many bits of a word, the high ones; the others are zeros.
    #[inline(always)]
    fn put(&mut self, word: u64, bits: usize) -> Option<()> {
        let joined = self.held | word >> self.have;
        let all = self.have + bits;
        if all < 64 {
            self.held = joined;
            self.have = all;
            return Some(());
        }
        self.words.next()?.copy_from_slice(&joined.to_be_bytes());
        self.held = if self.have == 0 { 0 } else { word << (64 - self.have) };
        self.have = all - 64;
        Some(())
    }

    fn finish(mut self) {
        let last = self.held.to_be_bytes();
        match self.words.next() {
            Some(word) => word.copy_from_slice(&last),
            None => {
                let rest = self.words.into_remainder();
                rest.copy_from_slice(&last[..rest.len()]);
            }
        }
    }
}

/// Writes such numbers, 64 bits at a time.
#[inline(always)]
pub fn long_write<const BITS: usize, T>(from: &[T], out: &mut [u8], number: impl Fn(&T) -> u128) -> bool {
    if out.len() != (BITS * from.len()).div_ceil(8) {
        return false;
    }
    let mut joined = Joined { words: out.chunks_exact_mut(8), held: 0, have: 0 };
    for value in from {
        let value = number(value);
        if value >> BITS != 0 {
            return false;
        }
        let high = value << (128 - BITS);
        let first = joined.put((high >> 64) as u64, BITS.min(64));
        let done = if BITS > 64 { first.and_then(|_| joined.put(high as u64, BITS - 64)) } else { first };
        if done.is_none() {
            return false;
        }
    }
    joined.finish();
    true
}

pub fn skip_bytes(bytes: &[u8], out: &mut [u8]) -> bool {
    let mut parts = bytes.chunks_exact(4);
    for to in out {
        let Some(part) = parts.next() else { return false };
        *to = part[0];
    }
    true
}

pub fn skip_few(bytes: &[u8], out: &mut [u8]) -> bool {
    if bytes.len() < out.len() {
        return false;
    }
    for (to, byte) in out.iter_mut().zip(bytes) {
        *to = byte >> 3;
    }
    true
}

/// Each place is taken as one that could be anywhere.
pub fn seeks(bytes: &[u8], out: &mut [u16]) -> bool {
    let mut place = 0;
    for to in out {
        let Some(b) = bytes.get(black_box(place)..).and_then(|rest| rest.first_chunk()) else { return false };
        *to = u16::from_be_bytes(*b);
        place += 4;
    }
    true
}

pub fn u16_grow(from: &[u16], out: &mut [u8]) -> bool {
    let mut all = Vec::new();
    for number in from {
        all.extend_from_slice(&number.to_be_bytes());
    }
    out.copy_from_slice(black_box(&all));
    true
}
