//! Flags, numbers of several widths, skips, seeks, and a vector that grows.

mod bits;
mod hand;

use crate::bench::{both, Bench, Random};
use crate::calls;
use crate::records::*;

fn random_bytes(random: &mut Random, n: usize) -> Vec<u8> {
    (0..n).map(|_| random.bits(8) as u8).collect()
}

pub fn flags(bench: &mut Bench, random: &mut Random, size: usize) {
    let wire = random_bytes(random, size);
    let mut flags = vec![[false; 8]; size];
    assert!(hand::flags_read(&wire, &mut flags));
    both!(bench, "bool of one bit", size, 8 * size, flags, wire,
        read "library" calls::dk_flags_read, "hand" hand::flags_read, "bits" bits::flags_read, "best" bits::flags_best_read;
        write "library" calls::dk_flags_write, "hand" hand::flags_write, "bits" bits::flags_write, "best" bits::flags_best_write;);
    let mut ones = vec![[0; 8]; size];
    assert!(hand::ones_read(&wire, &mut ones));
    both!(bench, "eight parts of one bit", size, 8 * size, ones, wire,
        read "library" calls::dk_ones_read, "hand" hand::ones_read, "bits" bits::ones_read, "best" bits::ones_best_read;
        write "library" calls::dk_ones_write, "hand" hand::ones_write, "bits" bits::ones_write, "best" bits::ones_best_write;);
}

pub fn signed(bench: &mut Bench, random: &mut Random, size: usize) {
    let n = size / 3;
    let wire = random_bytes(random, 3 * n);
    let mut numbers = vec![0; n];
    assert!(hand::i24_read(&wire, &mut numbers));
    both!(bench, "24 bits", size, n, numbers, wire,
        read "library" calls::dk_i24_read, "hand" hand::i24_read, "bits" bits::i24_read, "best" bits::i24_best_read;
        write "library" calls::dk_i24_write, "hand" hand::i24_write, "bits" bits::i24_write, "best" bits::i24_best_write;);
    let n = size / 2;
    let wire = random_bytes(random, 2 * n);
    let mut numbers = vec![0; n];
    assert!(hand::i16_little_read(&wire, &mut numbers));
    both!(bench, "i16 little", size, n, numbers, wire,
        read "library" calls::dk_i16le_read, "hand" hand::i16_little_read,
            "bits" bits::i16_little_read, "best" bits::i16_little_best_read;
        write "library" calls::dk_i16le_write, "hand" hand::i16_little_write,
            "bits" bits::i16_little_write, "best" bits::i16_little_best_write;);
}

// A number of so many bits.
fn random_wide(random: &mut Random, bits: u32) -> u128 {
    (0..4).fold(0u128, |all, _| all << 32 | random.bits(32) as u128) >> (128 - bits)
}

macro_rules! long {
    ($bench:ident, $random:ident, $size:ident, $name:literal, $bits:literal, $value:ty, $made:expr, $number:expr,
     $dk_read:path, $dk_write:path, $read:path, $write:path, $best_read:path, $best_write:path) => {
        let n = $size / 8;
        let numbers: Vec<$value> = (0..n).map(|_| $made(random_wide($random, $bits))).collect();
        let mut wire = vec![0; ($bits * n).div_ceil(8)];
        assert!(hand::long_write::<$bits, $value>(&numbers, &mut wire, $number));
        both!($bench, $name, $size, n, numbers, wire,
            read "library" $dk_read, "hand" |i: &[u8], o: &mut [$value]| hand::long_read::<$bits, $value>(i, o, $made),
                "bits" $read, "best" $best_read;
            write "library" $dk_write, "hand" |i: &[$value], o: &mut [u8]| hand::long_write::<$bits, $value>(i, o, $number),
                "bits" $write, "best" $best_write;);
    };
}

pub fn long(bench: &mut Bench, random: &mut Random, size: usize) {
    long!(bench, random, size, "61 bits", 61, u64, |number: u128| number as u64, |value: &u64| *value as u128,
        calls::dk_u61_read, calls::dk_u61_write, bits::u61_read, bits::u61_write, bits::u61_best_read, bits::u61_best_write);
    long!(bench, random, size, "65 bits", 65, Wide, Wide::from, Wide::number,
        calls::dk_u65_read, calls::dk_u65_write, bits::u65_read, bits::u65_write, bits::u65_best_read, bits::u65_best_write);
    long!(bench, random, size, "127 bits", 127, Wide, Wide::from, Wide::number,
        calls::dk_u127_read, calls::dk_u127_write, bits::u127_read, bits::u127_write, bits::u127_best_read, bits::u127_best_write);
}

pub fn places(bench: &mut Bench, random: &mut Random, size: usize) {
    let wire = random_bytes(random, size);
    let n = size / 4;
    let wanted: Vec<u8> = wire.iter().step_by(4).copied().collect();
    bench.run("a byte, 24 bits skipped", size, n, &wire, &wanted, &[
        ("library", Box::new(calls::dk_skip_bytes)),
        ("hand", Box::new(hand::skip_bytes)),
        ("bits", Box::new(bits::skip_bytes)),
        ("best", Box::new(bits::skip_bytes_best)),
    ]);
    let wanted: Vec<u8> = wire.iter().map(|byte| byte >> 3).collect();
    bench.run("5 bits, 3 bits skipped", size, size, &wire, &wanted, &[
        ("library", Box::new(calls::dk_skip_few)),
        ("hand", Box::new(hand::skip_few)),
        ("bits", Box::new(bits::skip_few)),
        ("best", Box::new(bits::skip_few_best)),
    ]);
    let wanted: Vec<u16> = wire.chunks_exact(4).map(|b| u16::from_be_bytes([b[0], b[1]])).collect();
    bench.run("a seek, then u16", size, n, &wire, &wanted, &[
        ("library", Box::new(calls::dk_seeks)),
        ("hand", Box::new(hand::seeks)),
        ("bits", Box::new(bits::seeks)),
        ("best", Box::new(bits::seeks_best)),
    ]);
}

pub fn growing(bench: &mut Bench, random: &mut Random, size: usize) {
    let n = size / 2;
    let numbers: Vec<u16> = (0..n).map(|_| random.bits(16) as u16).collect();
    let wire: Vec<u8> = numbers.iter().flat_map(|number| number.to_be_bytes()).collect();
    bench.run("u16 into a vector", size, n, &numbers, &wire, &[
        ("library", Box::new(calls::dk_u16_grow)),
        ("hand", Box::new(hand::u16_grow)),
        ("bits", Box::new(bits::u16_grow)),
        ("best", Box::new(bits::u16_best_grow)),
    ]);
}
