//! Parts that are kept as they were read and written again, by hand, in safe Rust: lists under a count, a size or an end, and an enum.

use super::hand::{NONE, put, take};
use crate::records::PartFields;
use std::hint::black_box;

/// A part that is kept as it was read.
pub trait Kept: Sized {
    fn read(bytes: &[u8], at: &mut usize) -> Option<Self>;

    fn write(&self, out: &mut [u8], at: &mut usize) -> Option<()>;

    fn fields(&self) -> PartFields;
}

pub fn read<K: Kept>(bytes: &[u8], out: &mut [PartFields]) -> bool {
    let mut at = 0;
    for to in out {
        let Some(kept) = K::read(bytes, &mut at) else { return false };
        *to = black_box(kept).fields();
    }
    true
}

pub fn round<K: Kept>(bytes: &[u8], count: usize, out: &mut [u8]) -> bool {
    let (mut at, mut put) = (0, 0);
    (0..count).all(|_| K::read(bytes, &mut at).and_then(|kept| black_box(kept).write(out, &mut put)).is_some())
}

/// Each part has so many bytes to itself.
pub fn read_each<K: Kept>(bytes: &[u8], each: usize, out: &mut [PartFields]) -> bool {
    let mut wholes = bytes.chunks_exact(each);
    for to in out {
        let Some(kept) = wholes.next().and_then(|whole| K::read(black_box(whole), &mut 0)) else { return false };
        *to = black_box(kept).fields();
    }
    true
}

pub fn round_each<K: Kept>(bytes: &[u8], each: usize, out: &mut [u8]) -> bool {
    let mut put = 0;
    bytes.chunks_exact(each).all(|whole| K::read(black_box(whole), &mut 0).and_then(|kept| black_box(kept).write(out, &mut put)).is_some())
}

#[inline(always)]
fn take_bytes<'a>(bytes: &'a [u8], at: &mut usize, count: usize) -> Option<&'a [u8]> {
    let taken = bytes.get(*at..)?.get(..count)?;
    *at += count;
    Some(taken)
}

#[inline(always)]
fn room<'a>(out: &'a mut [u8], at: &mut usize, count: usize) -> Option<&'a mut [u8]> {
    let given = out.get_mut(*at..)?.get_mut(..count)?;
    *at += count;
    Some(given)
}

#[inline(always)]
fn take_numbers(bytes: &[u8], at: &mut usize, count: usize) -> Option<Vec<u16>> {
    let taken = take_bytes(bytes, at, 2 * count)?;
    Some(taken.chunks_exact(2).map(|two| u16::from_be_bytes([two[0], two[1]])).collect())
}

#[inline(always)]
fn put_numbers(numbers: &[u16], out: &mut [u8], at: &mut usize) -> Option<()> {
    for (to, number) in room(out, at, 2 * numbers.len())?.chunks_exact_mut(2).zip(numbers) {
        to.copy_from_slice(&number.to_be_bytes());
    }
    Some(())
}

fn of_bytes(items: &[u8]) -> PartFields {
    PartFields { number: items.len() as u32, short: items.last().map_or(0, |last| *last as u16), ..NONE }
}

fn of_numbers(items: &[u16]) -> PartFields {
    PartFields { number: items.len() as u32, short: *items.last().unwrap_or(&0), ..NONE }
}

/// Four bits and a length in words of four bytes, the header of five words included, and options.
pub struct CountedBy(pub u8, pub Vec<u8>);

impl Kept for CountedBy {
    #[inline(always)]
    fn read(bytes: &[u8], at: &mut usize) -> Option<Self> {
        let [front] = *take(bytes, at)?;
        let words = (front & 15).checked_sub(5)? as usize;
        Some(CountedBy(front, take_bytes(bytes, at, 4 * words)?.to_vec()))
    }

    #[inline(always)]
    fn write(&self, out: &mut [u8], at: &mut usize) -> Option<()> {
        let CountedBy(front, items) = self;
        if (front & 15).checked_sub(5)? as usize * 4 != items.len() {
            return None;
        }
        put([*front], out, at)?;
        room(out, at, items.len())?.copy_from_slice(items);
        Some(())
    }

    fn fields(&self) -> PartFields {
        of_bytes(&self.1)
    }
}

/// A byte that counts them, and numbers.
pub struct Prefixed(pub Vec<u16>);

impl Kept for Prefixed {
    #[inline(always)]
    fn read(bytes: &[u8], at: &mut usize) -> Option<Self> {
        let [count] = *take(bytes, at)?;
        Some(Prefixed(take_numbers(bytes, at, count as usize)?))
    }

    #[inline(always)]
    fn write(&self, out: &mut [u8], at: &mut usize) -> Option<()> {
        put([u8::try_from(self.0.len()).ok()?], out, at)?;
        put_numbers(&self.0, out, at)
    }

    fn fields(&self) -> PartFields {
        of_numbers(&self.0)
    }
}

/// Bytes up to the first that is zero.
pub struct Until(pub Vec<u8>);

impl Kept for Until {
    #[inline(always)]
    fn read(bytes: &[u8], at: &mut usize) -> Option<Self> {
        let count = bytes.get(*at..)?.iter().position(|byte| *byte == 0)? + 1;
        Some(Until(take_bytes(bytes, at, count)?.to_vec()))
    }

    #[inline(always)]
    fn write(&self, out: &mut [u8], at: &mut usize) -> Option<()> {
        if self.0.iter().position(|byte| *byte == 0)? + 1 != self.0.len() {
            return None;
        }
        room(out, at, self.0.len())?.copy_from_slice(&self.0);
        Some(())
    }

    fn fields(&self) -> PartFields {
        of_bytes(&self.0)
    }
}

/// A length in bytes, and numbers that fill it.
pub struct FilledBy(pub u16, pub Vec<u16>);

impl Kept for FilledBy {
    #[inline(always)]
    fn read(bytes: &[u8], at: &mut usize) -> Option<Self> {
        let length = u16::from_be_bytes(*take(bytes, at)?);
        if length % 2 != 0 {
            return None;
        }
        Some(FilledBy(length, take_numbers(bytes, at, length as usize / 2)?))
    }

    #[inline(always)]
    fn write(&self, out: &mut [u8], at: &mut usize) -> Option<()> {
        let FilledBy(length, items) = self;
        if *length as usize != 2 * items.len() {
            return None;
        }
        put(length.to_be_bytes(), out, at)?;
        put_numbers(items, out, at)
    }

    fn fields(&self) -> PartFields {
        of_numbers(&self.1)
    }
}

/// A byte of two numbers, and bytes to the end.
pub struct Rest(u8, Vec<u8>);

impl Kept for Rest {
    #[inline(always)]
    fn read(bytes: &[u8], at: &mut usize) -> Option<Self> {
        let [front] = *take(bytes, at)?;
        Some(Rest(front, bytes[*at..].to_vec()))
    }

    #[inline(always)]
    fn write(&self, out: &mut [u8], at: &mut usize) -> Option<()> {
        put([self.0], out, at)?;
        room(out, at, self.1.len())?.copy_from_slice(&self.1);
        Some(())
    }

    fn fields(&self) -> PartFields {
        of_bytes(&self.1)
    }
}

/// Forty kinds, each with a byte.
pub struct Forty(pub u8, pub u8);

impl Kept for Forty {
    #[inline(always)]
    fn read(bytes: &[u8], at: &mut usize) -> Option<Self> {
        let [id, byte] = *take(bytes, at)?;
        if id > 39 {
            return None;
        }
        Some(Forty(id, byte))
    }

    #[inline(always)]
    fn write(&self, out: &mut [u8], at: &mut usize) -> Option<()> {
        if self.0 > 39 {
            return None;
        }
        put([self.0, self.1], out, at)
    }

    fn fields(&self) -> PartFields {
        PartFields { byte: self.0, small: self.1, ..NONE }
    }
}
