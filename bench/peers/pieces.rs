//! What a count, an id or a byte order governs.

mod bits;
mod hand;

use crate::bench::{both, Bench, Random};
use crate::calls;
use crate::packets::random_udp;
use crate::records::*;
use bits::{best, usual};

// A work that takes how many there are, or how many bytes each has.
macro_rules! counted {
    ($bench:ident, $name:literal, $size:ident, $n:ident, $count:expr, $from:expr, $wanted:expr, $to:ty, $($side:literal $work:path),*) => {
        let count = $count;
        $bench.run($name, $size, $n, &$from, &$wanted, &[
            $(($side, Box::new(move |i: &[u8], o: &mut [$to]| $work(i, count, o)))),*
        ]);
    };
}

pub fn counted_bytes(bench: &mut Bench, random: &mut Random, size: usize) {
    let (mut wire, mut wanted) = (Vec::new(), Vec::new());
    while wire.len() < size {
        let count = random.bits(6) as u8;
        let items: Vec<u8> = (0..count).map(|_| random.bits(8) as u8).collect();
        wire.push(count);
        wire.extend_from_slice(&items);
        wanted.push((count as u16) << 8 | *items.last().unwrap_or(&0) as u16);
    }
    let n = wanted.len();
    bench.run("Counted of bytes read", size, n, &wire, &wanted, &[
        ("library", Box::new(calls::dk_counted_bytes_read)),
        ("hand", Box::new(hand::counted_bytes_read)),
        ("bits", Box::new(usual::counted_bytes_read)),
        ("best", Box::new(best::counted_bytes_read)),
    ]);
    counted!(bench, "Counted of bytes read and written", size, n, n, wire, wire, u8, "library" calls::dk_counted_bytes_round,
        "hand" hand::counted_bytes_round, "bits" usual::counted_bytes_round, "best" best::counted_bytes_round);
}

pub fn counted_records(bench: &mut Bench, random: &mut Random, size: usize) {
    let (mut wire, mut wanted) = (Vec::new(), Vec::new());
    while wire.len() < size {
        let count = random.bits(4) as u8;
        let items: Vec<UdpFields> = (0..count).map(|_| random_udp(random)).collect();
        wire.push(count);
        for item in &items {
            wire.extend([item.source, item.destination, item.length, item.checksum].iter().flat_map(|field| field.to_be_bytes()));
        }
        wanted.push(items.last().map_or(0, |item| item.checksum));
    }
    let n = wanted.len();
    bench.run("Counted of UDP read", size, n, &wire, &wanted, &[
        ("library", Box::new(calls::dk_counted_udps_read)),
        ("hand", Box::new(hand::counted_udps_read)),
        ("bits", Box::new(usual::counted_udps_read)),
        ("best", Box::new(best::counted_udps_read)),
    ]);
    counted!(bench, "Counted of UDP read and written", size, n, n, wire, wire, u8, "library" calls::dk_counted_udps_round,
        "hand" hand::counted_udps_round, "bits" usual::counted_udps_round, "best" best::counted_udps_round);
}

fn random_message(random: &mut Random) -> MessageFields {
    let mut twelve = || (random.bits(12) << 4) as i16 >> 4;
    let (across, up) = (twelve(), twelve());
    match random.bits(20) % 3 {
        0 => MessageFields { id: 1, tone: random.bits(16) as u16, across: 0, up: 0 },
        1 => MessageFields { id: 2, tone: 0, across, up },
        _ => MessageFields { id: 3, tone: 0, across: 0, up: 0 },
    }
}

pub fn choices(bench: &mut Bench, random: &mut Random, size: usize) {
    let n = size / 3;
    let messages: Vec<MessageFields> = (0..n).map(|_| random_message(random)).collect();
    let bytes: usize = messages.iter().map(|message| [3, 4, 1][message.id as usize - 1]).sum();
    let mut wire = vec![0; bytes];
    assert!(hand::message_write(&messages, &mut wire));
    both!(bench, "an id that chooses", size, n, messages, wire,
        read "library" calls::dk_message_read, "hand" hand::message_read, "bits" usual::message_read, "best" best::message_read;
        write "library" calls::dk_message_write, "hand" hand::message_write, "bits" usual::message_write, "best" best::message_write;);
}

// A header of 12 bytes and the question for www.example.com, of 33 bytes in all.
pub fn questions(bench: &mut Bench, random: &mut Random, size: usize) {
    let (mut wire, mut wanted) = (Vec::new(), Vec::new());
    for _ in 0..size / 33 {
        let id = random.bits(16) as u16;
        wire.extend_from_slice(&id.to_be_bytes());
        wire.extend_from_slice(&[1, 0, 0, 1, 0, 0, 0, 0, 0, 0]);
        wire.extend_from_slice(b"\x03www\x07example\x03com\x00\x00\x01\x00\x01");
        wanted.push(QueryFields { id, kind: 1, class: 1, labels: 4 });
    }
    let n = wanted.len();
    counted!(bench, "DNS question unpacked", size, n, 33, wire, wanted, QueryFields, "library" calls::dk_query_unpack,
        "hand" hand::query_unpack, "bits" usual::query_unpack, "best" best::query_unpack);
    counted!(bench, "DNS question read and written", size, n, n, wire, wire, u8, "library" calls::dk_query_round,
        "hand" hand::query_round, "bits" usual::query_round, "best" best::query_round);
}

pub fn elf_headers(bench: &mut Bench, random: &mut Random, size: usize) {
    let (mut wire, mut wanted) = (Vec::new(), Vec::new());
    for _ in 0..size / 64 {
        let elf = ElfFields {
            entry: random.bits(40),
            segments_at: 64,
            sections_at: random.bits(32),
            flags: 0,
            kind: 2,
            machine: 62,
        };
        wire.extend_from_slice(&[0x7f, b'E', b'L', b'F', 2, 1, 1, 0, 0, 0, 0, 0, 0, 0, 0, 0]);
        wire.extend_from_slice(&elf.kind.to_le_bytes());
        wire.extend_from_slice(&elf.machine.to_le_bytes());
        wire.extend_from_slice(&1u32.to_le_bytes());
        for place in [elf.entry, elf.segments_at, elf.sections_at] {
            wire.extend_from_slice(&place.to_le_bytes());
        }
        wire.extend_from_slice(&elf.flags.to_le_bytes());
        for size in [64u16, 56, 9, 64, 30, 29] {
            wire.extend_from_slice(&size.to_le_bytes());
        }
        wanted.push(elf);
    }
    let n = wanted.len();
    bench.run("ELF header unpacked", size, n, &wire, &wanted, &[
        ("library", Box::new(calls::dk_elf_unpack)),
        ("hand", Box::new(hand::elf_unpack)),
        ("bits", Box::new(usual::elf_unpack)),
        ("best", Box::new(best::elf_unpack)),
    ]);
    counted!(bench, "ELF header read and written", size, n, n, wire, wire, u8, "library" calls::dk_elf_round,
        "hand" hand::elf_round, "bits" usual::elf_round, "best" best::elf_round);
}
