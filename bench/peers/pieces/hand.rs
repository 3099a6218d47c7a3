//! What a count, an id or a byte order governs, by hand, in safe Rust.

use crate::packets::{udp_by_hand, udp_bytes};
use crate::records::*;
use std::hint::black_box;

fn be16(b: &[u8], at: usize) -> u16 {
    u16::from_be_bytes([b[at], b[at + 1]])
}

// A byte that counts them, and bytes.
#[inline(always)]
fn counted_bytes(bytes: &[u8], at: &mut usize) -> Option<Vec<u8>> {
    let count = *bytes.get(*at)? as usize;
    let items = bytes.get(*at + 1..*at + 1 + count)?.to_vec();
    *at += 1 + count;
    Some(items)
}

pub fn counted_bytes_read(bytes: &[u8], out: &mut [u16]) -> bool {
    let mut at = 0;
    for to in out {
        let Some(items) = counted_bytes(bytes, &mut at) else { return false };
        let items = black_box(items);
        *to = (items.len() as u16) << 8 | *items.last().unwrap_or(&0) as u16;
    }
    true
}

pub fn counted_bytes_round(bytes: &[u8], count: usize, out: &mut [u8]) -> bool {
    let (mut at, mut put) = (0, 0);
    for _ in 0..count {
        let Some(items) = counted_bytes(bytes, &mut at) else { return false };
        let items = black_box(items);
        let Some(to) = out.get_mut(put..put + 1 + items.len()) else { return false };
        let Ok(head) = u8::try_from(items.len()) else { return false };
        to[0] = head;
        to[1..].copy_from_slice(&items);
        put += 1 + items.len();
    }
    true
}

// A byte that counts them, and headers of UDP.
#[inline(always)]
fn counted_udps(bytes: &[u8], at: &mut usize) -> Option<Vec<UdpFields>> {
    let count = *bytes.get(*at)? as usize;
    let parts = bytes.get(*at + 1..*at + 1 + 8 * count)?.chunks_exact(8);
    *at += 1 + 8 * count;
    Some(parts.map(|part| udp_by_hand(part.try_into().unwrap())).collect())
}

pub fn counted_udps_read(bytes: &[u8], out: &mut [u16]) -> bool {
    let mut at = 0;
    for to in out {
        let Some(items) = counted_udps(bytes, &mut at) else { return false };
        *to = black_box(items).last().map_or(0, |udp| udp.checksum);
    }
    true
}

pub fn counted_udps_round(bytes: &[u8], count: usize, out: &mut [u8]) -> bool {
    let (mut at, mut put) = (0, 0);
    for _ in 0..count {
        let Some(items) = counted_udps(bytes, &mut at) else { return false };
        let items = black_box(items);
        let Some(to) = out.get_mut(put..put + 1 + 8 * items.len()) else { return false };
        let Ok(head) = u8::try_from(items.len()) else { return false };
        to[0] = head;
        for (part, udp) in to[1..].chunks_exact_mut(8).zip(&items) {
            part.copy_from_slice(&udp_bytes(udp));
        }
        put += 1 + 8 * items.len();
    }
    true
}

#[inline(always)]
fn message(bytes: &[u8], at: &mut usize) -> Option<MessageFields> {
    let rest = bytes.get(*at..)?;
    match rest {
        [1, a, b, ..] => {
            *at += 3;
            Some(MessageFields { id: 1, tone: u16::from_be_bytes([*a, *b]), across: 0, up: 0 })
        }
        [2, a, b, c, ..] => {
            *at += 4;
            let both = i32::from_be_bytes([*a, *b, *c, 0]);
            Some(MessageFields { id: 2, tone: 0, across: (both >> 20) as i16, up: (both << 12 >> 20) as i16 })
        }
        [3, ..] => {
            *at += 1;
            Some(MessageFields { id: 3, tone: 0, across: 0, up: 0 })
        }
        _ => None,
    }
}

pub fn message_read(bytes: &[u8], out: &mut [MessageFields]) -> bool {
    let mut at = 0;
    for to in out {
        let Some(read) = message(bytes, &mut at) else { return false };
        *to = read;
    }
    true
}

fn fits_12(number: i16) -> bool {
    (-2048..2048).contains(&number)
}

#[inline(always)]
fn put_message(message: &MessageFields, out: &mut [u8], at: &mut usize) -> Option<()> {
    let rest = out.get_mut(*at..)?;
    match message.id {
        1 => {
            let to = rest.first_chunk_mut::<3>()?;
            to[0] = 1;
            to[1..].copy_from_slice(&message.tone.to_be_bytes());
            *at += 3;
        }
        2 if fits_12(message.across) && fits_12(message.up) => {
            let to = rest.first_chunk_mut::<4>()?;
            let both = (message.across as u32 & 0xfff) << 12 | message.up as u32 & 0xfff;
            *to = (2 << 24 | both).to_be_bytes();
            *at += 4;
        }
        3 => {
            *rest.first_mut()? = 3;
            *at += 1;
        }
        _ => return None,
    }
    Some(())
}

pub fn message_write(from: &[MessageFields], out: &mut [u8]) -> bool {
    let mut at = 0;
    from.iter().all(|message| put_message(message, out, &mut at).is_some())
}

/// A header and a question of DNS.
pub struct Query {
    pub id: u16,
    pub flags: u16,
    pub counts: [u16; 4],
    pub labels: Vec<Vec<u8>>,
    pub kind: u16,
    pub class: u16,
}

impl Query {
    pub fn fields(&self) -> QueryFields {
        QueryFields { id: self.id, kind: self.kind, class: self.class, labels: self.labels.len() as u16 }
    }
}

// A query, and how many bytes it takes.
fn query(b: &[u8]) -> Option<(Query, usize)> {
    let head: &[u8; 12] = b.first_chunk()?;
    let mut labels = Vec::new();
    let mut at = 12;
    loop {
        let count = *b.get(at)? as usize;
        if count > 63 {
            return None;
        }
        labels.push(b.get(at + 1..at + 1 + count)?.to_vec());
        at += 1 + count;
        if count == 0 {
            break;
        }
    }
    let end = b.get(at..at + 4)?;
    let counts = [be16(head, 4), be16(head, 6), be16(head, 8), be16(head, 10)];
    let query = Query { id: be16(head, 0), flags: be16(head, 2), counts, labels, kind: be16(end, 0), class: be16(end, 2) };
    Some((query, at + 4))
}

pub fn query_unpack(bytes: &[u8], each: usize, out: &mut [QueryFields]) -> bool {
    let mut parts = bytes.chunks_exact(each);
    for to in out {
        let Some((read, _)) = parts.next().and_then(|part| query(black_box(part))) else { return false };
        *to = black_box(read).fields();
    }
    true
}

fn put_query(query: &Query, out: &mut [u8]) -> Option<usize> {
    let head = out.first_chunk_mut::<12>()?;
    head[0..2].copy_from_slice(&query.id.to_be_bytes());
    head[2..4].copy_from_slice(&query.flags.to_be_bytes());
    for (to, count) in head[4..].chunks_exact_mut(2).zip(query.counts) {
        to.copy_from_slice(&count.to_be_bytes());
    }
    let mut at = 12;
    for label in &query.labels {
        let to = out.get_mut(at..at + 1 + label.len())?;
        to[0] = label.len() as u8;
        to[1..].copy_from_slice(label);
        at += 1 + label.len();
    }
    let end = out.get_mut(at..at + 4)?;
    end[0..2].copy_from_slice(&query.kind.to_be_bytes());
    end[2..4].copy_from_slice(&query.class.to_be_bytes());
    Some(at + 4)
}

pub fn query_round(bytes: &[u8], count: usize, out: &mut [u8]) -> bool {
    let (mut at, mut put) = (0, 0);
    for _ in 0..count {
        let Some((read, taken)) = query(&bytes[at..]) else { return false };
        at += taken;
        let Some(given) = put_query(&black_box(read), &mut out[put..]) else { return false };
        put += given;
    }
    true
}

/// A header of ELF, of 64 bits.
#[derive(Clone, Copy)]
pub struct Elf {
    pub big: bool,
    pub identity: [u8; 10],
    pub kind: u16,
    pub machine: u16,
    pub version: u32,
    pub places: [u64; 3],
    pub flags: u32,
    pub sizes: [u16; 6],
}

impl Elf {
    pub fn fields(&self) -> ElfFields {
        let [entry, segments_at, sections_at] = self.places;
        ElfFields { entry, segments_at, sections_at, flags: self.flags, kind: self.kind, machine: self.machine }
    }
}

pub const MAGIC: [u8; 5] = [0x7f, b'E', b'L', b'F', 2];

fn elf(b: &[u8; 64]) -> Option<Elf> {
    if b[..5] != MAGIC || b[5] == 0 || b[5] > 2 {
        return None;
    }
    let big = b[5] == 2;
    let two = |at: usize| {
        let bytes = b[at..at + 2].try_into().unwrap();
        if big { u16::from_be_bytes(bytes) } else { u16::from_le_bytes(bytes) }
    };
    let four = |at: usize| {
        let bytes = b[at..at + 4].try_into().unwrap();
        if big { u32::from_be_bytes(bytes) } else { u32::from_le_bytes(bytes) }
    };
    let eight = |at: usize| {
        let bytes = b[at..at + 8].try_into().unwrap();
        if big { u64::from_be_bytes(bytes) } else { u64::from_le_bytes(bytes) }
    };
    Some(Elf {
        big,
        identity: b[6..16].try_into().unwrap(),
        kind: two(16),
        machine: two(18),
        version: four(20),
        places: [eight(24), eight(32), eight(40)],
        flags: four(48),
        sizes: [two(52), two(54), two(56), two(58), two(60), two(62)],
    })
}

pub fn elf_unpack(bytes: &[u8], out: &mut [ElfFields]) -> bool {
    let mut parts = bytes.chunks_exact(64);
    for to in out {
        let Some(read) = parts.next().and_then(|part| elf(black_box(part).first_chunk()?)) else { return false };
        *to = black_box(read).fields();
    }
    true
}

fn put_elf(elf: &Elf, to: &mut [u8; 64]) {
    to[..5].copy_from_slice(&MAGIC);
    to[5] = 1 + elf.big as u8;
    to[6..16].copy_from_slice(&elf.identity);
    let mut at = 16;
    let mut put = |value: u64, bytes: usize| {
        let to = &mut to[at..at + bytes];
        if elf.big {
            to.copy_from_slice(&value.to_be_bytes()[8 - bytes..]);
        } else {
            to.copy_from_slice(&value.to_le_bytes()[..bytes]);
        }
        at += bytes;
    };
    put(elf.kind as u64, 2);
    put(elf.machine as u64, 2);
    put(elf.version as u64, 4);
    for place in elf.places {
        put(place, 8);
    }
    put(elf.flags as u64, 4);
    for size in elf.sizes {
        put(size as u64, 2);
    }
}

pub fn elf_round(bytes: &[u8], count: usize, out: &mut [u8]) -> bool {
    let mut parts = bytes.chunks_exact(64).zip(out.chunks_exact_mut(64));
    for _ in 0..count {
        let Some((from, to)) = parts.next() else { return false };
        let Some(read) = elf(from.try_into().unwrap()) else { return false };
        put_elf(&black_box(read), to.try_into().unwrap());
    }
    true
}
