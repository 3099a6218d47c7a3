//! Each part of records: those that are made of fields, and those that are kept as they were read.

mod bits;
mod hand;
mod kept;

use crate::bench::{Bench, Random};
use crate::calls;
use crate::records::PartFields;
use hand::{NONE, Part};

// Fields of a part, of which the other ones are zeros.
type Sample = fn(&mut Random) -> PartFields;

fn plain_part<P: Part + bits::Part>(bench: &mut Bench, random: &mut Random, size: usize, part: usize, name: &str, sample: Sample) {
    let (mut values, mut wire, mut at) = (Vec::new(), vec![0; size + 64], 0);
    while at < size * P::PLACES {
        let fields = sample(random);
        <P as Part>::write(&fields, &mut wire, &mut at).unwrap();
        values.push(fields);
    }
    wire.truncate(at.div_ceil(P::PLACES));
    let n = values.len();
    bench.run(&format!("{name} read"), size, n, &wire, &values, &[
        ("library", Box::new(move |i: &[u8], o: &mut [PartFields]| calls::dk_part_read(i, part, o))),
        ("hand", Box::new(hand::read::<P>)),
        ("bits", Box::new(bits::read::<P>)),
    ]);
    bench.run(&format!("{name} write"), size, n, &values, &wire, &[
        ("library", Box::new(move |i: &[PartFields], o: &mut [u8]| calls::dk_part_write(i, part, o))),
        ("hand", Box::new(hand::write::<P>)),
        ("bits", Box::new(bits::write::<P>)),
    ]);
}

fn short(random: &mut Random) -> PartFields {
    PartFields { short: random.bits(16) as u16, ..NONE }
}

fn optional(random: &mut Random, there: bool) -> PartFields {
    let number = if there { random.bits(32) as u32 } else { 0 };
    PartFields { number, short: random.bits(15) as u16, byte: there as u8, small: 0 }
}

fn under_head(random: &mut Random) -> PartFields {
    let width = random.bits(5) as u8 + 1;
    PartFields { number: random.bits(width as u32) as u32, byte: width, ..NONE }
}

fn frame(random: &mut Random) -> PartFields {
    match random.bits(20) % 3 {
        0 => PartFields { number: random.bits(16) as u32, short: 0x0800, ..NONE },
        1 => PartFields { short: 0x0806, ..NONE },
        _ => PartFields { number: random.bits(8) as u32, short: 0x8000 | random.bits(15) as u16, ..NONE },
    }
}

fn chosen(random: &mut Random) -> PartFields {
    let small = random.bits(1) as u8 + 1;
    let bits = if small == 1 { 16 } else { 8 };
    PartFields { number: 0, short: random.bits(bits) as u16, byte: random.bits(4) as u8, small }
}

/// Parts that are made of fields. Their numbers are those of `bench_parts`.
pub fn plain(bench: &mut Bench, random: &mut Random, size: usize) {
    plain_part::<hand::Optional>(bench, random, size, 0, "Optional, there", |random| optional(random, true));
    plain_part::<hand::Optional>(bench, random, size, 0, "Optional, not there", |random| optional(random, false));
    plain_part::<hand::Optional>(bench, random, size, 0, "Optional, either", |random| {
        let there = random.bits(1) == 1;
        optional(random, there)
    });
    plain_part::<hand::SizedBy>(bench, random, size, 1, "SizedBy", |random| PartFields { number: random.bits(32) as u32, short: 4, ..NONE });
    plain_part::<hand::ZeroBits>(bench, random, size, 2, "ZeroBits", |random| PartFields { byte: random.bits(3) as u8, ..NONE });
    plain_part::<hand::ZeroBytes>(bench, random, size, 3, "ZeroBytes", short);
    plain_part::<hand::Magic>(bench, random, size, 4, "Magic", short);
    plain_part::<hand::MagicBytes>(bench, random, size, 5, "MagicBytes", short);
    plain_part::<hand::Assert>(bench, random, size, 6, "Assert", |random| {
        PartFields { byte: 5 + (random.bits(20) % 11) as u8, small: random.bits(4) as u8, ..NONE }
    });
    plain_part::<hand::UnderHead>(bench, random, size, 7, "UnderHead", under_head);
    plain_part::<hand::Enum>(bench, random, size, 8, "MsbEnum with Otherwise", frame);
    plain_part::<hand::ChosenBy>(bench, random, size, 9, "ChosenBy", chosen);
    plain_part::<hand::Mapped>(bench, random, size, 10, "an enum for a bit", |random| {
        PartFields { byte: random.bits(7) as u8, small: random.bits(1) as u8, ..NONE }
    });
}

// The bytes of one part.
type Bytes = fn(&mut Random) -> Vec<u8>;

fn kept_part<K: bits::Kept>(bench: &mut Bench, random: &mut Random, size: usize, part: usize, name: &str, bytes: Bytes) {
    let (mut wire, mut values) = (Vec::new(), Vec::new());
    while wire.len() < size {
        let kept = bytes(random);
        values.push(K::read(&kept, &mut 0).unwrap().fields());
        wire.extend_from_slice(&kept);
    }
    let n = values.len();
    bench.run(&format!("{name} read"), size, n, &wire, &values, &[
        ("library", Box::new(move |i: &[u8], o: &mut [PartFields]| calls::dk_part_read(i, part, o))),
        ("hand", Box::new(kept::read::<K>)),
        ("bits", Box::new(bits::read_kept::<K>)),
    ]);
    bench.run(&format!("{name} read and written"), size, n, &wire, &wire, &[
        ("library", Box::new(move |i: &[u8], o: &mut [u8]| calls::dk_part_round(i, part, n, o))),
        ("hand", Box::new(move |i: &[u8], o: &mut [u8]| kept::round::<K>(i, n, o))),
        ("bits", Box::new(move |i: &[u8], o: &mut [u8]| bits::round::<K>(i, n, o))),
    ]);
}

fn behind(mut head: Vec<u8>, random: &mut Random, count: usize) -> Vec<u8> {
    head.extend((0..count).map(|_| random.bits(8) as u8));
    head
}

fn options(random: &mut Random) -> Vec<u8> {
    let words = 5 + (random.bits(20) % 11) as u8;
    behind(vec![(random.bits(4) as u8) << 4 | words], random, 4 * (words as usize - 5))
}

fn prefixed(random: &mut Random) -> Vec<u8> {
    let count = random.bits(4) as u8;
    behind(vec![count], random, 2 * count as usize)
}

fn text(random: &mut Random) -> Vec<u8> {
    let count = random.bits(5);
    let mut text: Vec<u8> = (0..count).map(|_| b'a' + (random.bits(20) % 26) as u8).collect();
    text.push(0);
    text
}

fn filled(random: &mut Random) -> Vec<u8> {
    let count = random.bits(4) as u8;
    behind(vec![0, 2 * count], random, 2 * count as usize)
}

// How many bytes a list to the end has to itself.
const EACH: usize = 33;

/// Parts that are kept as they were read: lists, and an enum of many kinds.
pub fn kept(bench: &mut Bench, random: &mut Random, size: usize) {
    kept_part::<kept::Forty>(bench, random, size, 11, "MsbEnum of 40", |random| vec![(random.bits(20) % 40) as u8, random.bits(8) as u8]);
    kept_part::<kept::CountedBy>(bench, random, size, 12, "CountedBy of bytes", options);
    kept_part::<kept::Prefixed>(bench, random, size, 13, "Prefixed of u16", prefixed);
    kept_part::<kept::Until>(bench, random, size, 14, "Until of bytes", text);
    kept_part::<kept::FilledBy>(bench, random, size, 15, "FilledBy of u16", filled);
    let n = size / EACH;
    let wire = behind(Vec::new(), random, EACH * n);
    let mut values = vec![NONE; n];
    assert!(kept::read_each::<kept::Rest>(&wire, EACH, &mut values));
    bench.run("Rest of bytes read", size, n, &wire, &values, &[
        ("library", Box::new(|i: &[u8], o: &mut [PartFields]| calls::dk_rest_read(i, EACH, o))),
        ("hand", Box::new(|i: &[u8], o: &mut [PartFields]| kept::read_each::<kept::Rest>(i, EACH, o))),
    ]);
    bench.run("Rest of bytes read and written", size, n, &wire, &wire, &[
        ("library", Box::new(|i: &[u8], o: &mut [u8]| calls::dk_rest_round(i, EACH, o))),
        ("hand", Box::new(|i: &[u8], o: &mut [u8]| kept::round_each::<kept::Rest>(i, EACH, o))),
    ]);
}
