//! The same by the crate `bitstream_io`: over cursors, as all that is read and written by it so, and over slices, by readers and writers of their own.

use super::hand::{Elf, Query, MAGIC};
use crate::packets::{put_udp, put_udp_joined, udp, udp_joined};
use crate::records::*;
use crate::slices::{cursor, cursor_mut, room, slice};
use bitstream_io::{BigEndian as Msb, BitRead, BitReader, BitWrite, BitWriter, Endianness, LittleEndian as Lsb};
use std::hint::black_box;
use std::io::{self, Read, Write};

fn refused() -> io::Error {
    io::ErrorKind::InvalidData.into()
}

fn counted_bytes<R: Read>(r: &mut BitReader<R, Msb>) -> io::Result<Vec<u8>> {
    let count = r.read::<u8>(8)?;
    r.read_to_vec(count as usize)
}

fn put_counted_bytes<W: Write>(w: &mut BitWriter<W, Msb>, items: &[u8]) -> io::Result<()> {
    let head = u8::try_from(items.len()).map_err(|_| refused())?;
    w.write(8, head)?;
    w.write_bytes(items)
}

// A reader of one of the records is handed over, and a writer of one.
#[inline]
fn counted_udps<R: Read>(
    r: &mut BitReader<R, Msb>,
    one: impl Fn(&mut BitReader<R, Msb>) -> io::Result<UdpFields>,
) -> io::Result<Vec<UdpFields>> {
    let count = r.read::<u8>(8)?;
    let mut items = Vec::with_capacity(count as usize);
    for _ in 0..count {
        items.push(one(r)?);
    }
    Ok(items)
}

#[inline]
fn put_counted_udps<W: Write>(
    w: &mut BitWriter<W, Msb>,
    items: &[UdpFields],
    put: impl Fn(&mut BitWriter<W, Msb>, &UdpFields) -> io::Result<()>,
) -> io::Result<()> {
    let head = u8::try_from(items.len()).map_err(|_| refused())?;
    w.write(8, head)?;
    items.iter().try_for_each(|item| put(w, item))
}

fn message<R: Read>(r: &mut BitReader<R, Msb>) -> io::Result<MessageFields> {
    Ok(match r.read::<u8>(8)? {
        1 => MessageFields { id: 1, tone: r.read(16)?, across: 0, up: 0 },
        2 => MessageFields { id: 2, tone: 0, across: r.read_signed(12)?, up: r.read_signed(12)? },
        3 => MessageFields { id: 3, tone: 0, across: 0, up: 0 },
        _ => return Err(refused()),
    })
}

fn put_message<W: Write>(w: &mut BitWriter<W, Msb>, message: &MessageFields) -> io::Result<()> {
    w.write(8, message.id as u8)?;
    match message.id {
        1 => w.write(16, message.tone),
        2 => {
            w.write_signed(12, message.across)?;
            w.write_signed(12, message.up)
        }
        _ => Ok(()),
    }
}

#[inline]
fn message_joined<R: Read>(r: &mut BitReader<R, Msb>) -> io::Result<MessageFields> {
    Ok(match r.read::<u8>(8)? {
        1 => MessageFields { id: 1, tone: r.read(16)?, across: 0, up: 0 },
        2 => {
            let both = (r.read::<u32>(24)? << 8) as i32;
            MessageFields { id: 2, tone: 0, across: (both >> 20) as i16, up: (both << 12 >> 20) as i16 }
        }
        3 => MessageFields { id: 3, tone: 0, across: 0, up: 0 },
        _ => return Err(refused()),
    })
}

#[inline]
fn put_message_joined<W: Write>(w: &mut BitWriter<W, Msb>, message: &MessageFields) -> io::Result<()> {
    w.write(8, message.id as u8)?;
    let fits = |number: i16| (-2048..2048).contains(&number);
    match message.id {
        1 => w.write(16, message.tone),
        2 if fits(message.across) && fits(message.up) => {
            w.write(24, (message.across as u32 & 0xfff) << 12 | message.up as u32 & 0xfff)
        }
        3 => Ok(()),
        _ => Err(refused()),
    }
}

fn query<R: Read>(r: &mut BitReader<R, Msb>) -> io::Result<Query> {
    let id = r.read(16)?;
    let flags = r.read(16)?;
    let counts = [r.read(16)?, r.read(16)?, r.read(16)?, r.read(16)?];
    let mut labels = Vec::new();
    loop {
        let count = r.read::<u8>(8)?;
        if count > 63 {
            return Err(refused());
        }
        labels.push(r.read_to_vec(count as usize)?);
        if count == 0 {
            break;
        }
    }
    Ok(Query { id, flags, counts, labels, kind: r.read(16)?, class: r.read(16)? })
}

fn put_query<W: Write>(w: &mut BitWriter<W, Msb>, query: &Query) -> io::Result<()> {
    w.write(16, query.id)?;
    w.write(16, query.flags)?;
    for count in query.counts {
        w.write(16, count)?;
    }
    for label in &query.labels {
        w.write(8, label.len() as u8)?;
        w.write_bytes(label)?;
    }
    w.write(16, query.kind)?;
    w.write(16, query.class)
}

#[inline]
fn query_joined<R: Read>(r: &mut BitReader<R, Msb>) -> io::Result<Query> {
    let head: u128 = r.read(96)?;
    let mut labels = Vec::new();
    loop {
        let count = r.read::<u8>(8)?;
        if count > 63 {
            return Err(refused());
        }
        labels.push(r.read_to_vec(count as usize)?);
        if count == 0 {
            break;
        }
    }
    let end: u32 = r.read(32)?;
    let counts = [(head >> 48) as u16, (head >> 32) as u16, (head >> 16) as u16, head as u16];
    let (id, flags) = ((head >> 80) as u16, (head >> 64) as u16);
    Ok(Query { id, flags, counts, labels, kind: (end >> 16) as u16, class: end as u16 })
}

#[inline]
fn put_query_joined<W: Write>(w: &mut BitWriter<W, Msb>, query: &Query) -> io::Result<()> {
    let first = (query.id as u128) << 16 | query.flags as u128;
    let head = query.counts.iter().fold(first, |head, count| head << 16 | *count as u128);
    w.write(96, head)?;
    for label in &query.labels {
        w.write(8, label.len() as u8)?;
        w.write_bytes(label)?;
    }
    w.write(32, (query.kind as u32) << 16 | query.class as u32)
}

#[inline]
fn elf_rest<R: Read, E: Endianness>(r: &mut BitReader<R, E>, big: bool, identity: [u8; 10]) -> io::Result<Elf> {
    Ok(Elf {
        big,
        identity,
        kind: r.read(16)?,
        machine: r.read(16)?,
        version: r.read(32)?,
        places: [r.read(64)?, r.read(64)?, r.read(64)?],
        flags: r.read(32)?,
        sizes: [r.read(16)?, r.read(16)?, r.read(16)?, r.read(16)?, r.read(16)?, r.read(16)?],
    })
}

// The first bytes say how the rest lies.
#[inline]
fn elf<R: Read>(mut source: R) -> io::Result<Elf> {
    let mut first = [0; 16];
    source.read_exact(&mut first)?;
    if first[..5] != MAGIC {
        return Err(refused());
    }
    let identity = first[6..].try_into().unwrap();
    match first[5] {
        1 => elf_rest(&mut BitReader::endian(source, Lsb), false, identity),
        2 => elf_rest(&mut BitReader::endian(source, Msb), true, identity),
        _ => Err(refused()),
    }
}

#[inline]
fn put_elf_rest<W: Write, E: Endianness>(w: &mut BitWriter<W, E>, elf: &Elf) -> io::Result<()> {
    w.write(16, elf.kind)?;
    w.write(16, elf.machine)?;
    w.write(32, elf.version)?;
    for place in elf.places {
        w.write(64, place)?;
    }
    w.write(32, elf.flags)?;
    elf.sizes.iter().try_for_each(|size| w.write(16, *size))
}

#[inline]
fn put_elf<W: Write>(mut sink: W, elf: &Elf) -> io::Result<()> {
    sink.write_all(&MAGIC)?;
    sink.write_all(&[1 + elf.big as u8])?;
    sink.write_all(&elf.identity)?;
    if elf.big {
        put_elf_rest(&mut BitWriter::endian(sink, Msb), elf)
    } else {
        put_elf_rest(&mut BitWriter::endian(sink, Lsb), elf)
    }
}

fn all<T>(out: &mut [T], mut one: impl FnMut() -> io::Result<T>) -> bool {
    for to in out {
        match one() {
            Ok(read) => *to = read,
            Err(_) => return false,
        }
    }
    true
}

macro_rules! pieces {
    ($module:ident, $source:ident, $sink:ident, $udp:ident, $put_udp:ident, $message:ident, $put_message:ident, $query:ident, $put_query:ident) => {
        pub mod $module {
            use super::*;

            pub fn counted_bytes_read(bytes: &[u8], out: &mut [u16]) -> bool {
                let mut r = BitReader::endian($source::<10>(bytes), Msb);
                all(out, || {
                    let items = black_box(counted_bytes(&mut r)?);
                    Ok((items.len() as u16) << 8 | *items.last().unwrap_or(&0) as u16)
                })
            }

            pub fn counted_bytes_round(bytes: &[u8], count: usize, out: &mut [u8]) -> bool {
                let mut r = BitReader::endian($source::<11>(bytes), Msb);
                let mut w = BitWriter::endian($sink::<11>(out), Msb);
                (0..count).all(|_| counted_bytes(&mut r).and_then(|items| put_counted_bytes(&mut w, &black_box(items))).is_ok())
            }

            pub fn counted_udps_read(bytes: &[u8], out: &mut [u16]) -> bool {
                let mut r = BitReader::endian($source::<12>(bytes), Msb);
                all(out, || Ok(black_box(counted_udps(&mut r, $udp)?).last().map_or(0, |item| item.checksum)))
            }

            pub fn counted_udps_round(bytes: &[u8], count: usize, out: &mut [u8]) -> bool {
                let mut r = BitReader::endian($source::<13>(bytes), Msb);
                let mut w = BitWriter::endian($sink::<13>(out), Msb);
                (0..count).all(|_| counted_udps(&mut r, $udp).and_then(|items| put_counted_udps(&mut w, &black_box(items), $put_udp)).is_ok())
            }

            pub fn message_read(bytes: &[u8], out: &mut [MessageFields]) -> bool {
                let mut r = BitReader::endian($source::<14>(bytes), Msb);
                all(out, || $message(&mut r))
            }

            pub fn message_write(from: &[MessageFields], out: &mut [u8]) -> bool {
                let mut w = BitWriter::endian($sink::<15>(out), Msb);
                from.iter().all(|message| $put_message(&mut w, message).is_ok())
            }

            pub fn query_unpack(bytes: &[u8], each: usize, out: &mut [QueryFields]) -> bool {
                let mut parts = bytes.chunks_exact(each);
                all(out, || {
                    let part = parts.next().ok_or_else(refused)?;
                    Ok(black_box($query(&mut BitReader::endian($source::<16>(black_box(part)), Msb))?).fields())
                })
            }

            pub fn query_round(bytes: &[u8], count: usize, out: &mut [u8]) -> bool {
                let mut r = BitReader::endian($source::<17>(bytes), Msb);
                let mut w = BitWriter::endian($sink::<17>(out), Msb);
                (0..count).all(|_| $query(&mut r).and_then(|query| $put_query(&mut w, &black_box(query))).is_ok())
            }

            pub fn elf_unpack(bytes: &[u8], out: &mut [ElfFields]) -> bool {
                let mut parts = bytes.chunks_exact(64);
                all(out, || Ok(black_box(elf($source::<18>(black_box(parts.next().ok_or_else(refused)?)))?).fields()))
            }

            pub fn elf_round(bytes: &[u8], count: usize, out: &mut [u8]) -> bool {
                let mut parts = bytes.chunks_exact(64).zip(out.chunks_exact_mut(64));
                (0..count).all(|_| match parts.next() {
                    Some((from, to)) => elf($source::<19>(from)).and_then(|read| put_elf($sink::<19>(to), &black_box(read))).is_ok(),
                    None => false,
                })
            }
        }
    };
}

pieces!(usual, cursor, cursor_mut, udp, put_udp, message, put_message, query, put_query);
pieces!(best, slice, room, udp_joined, put_udp_joined, message_joined, put_message_joined, query_joined, put_query_joined);
