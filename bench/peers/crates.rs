//! The crates `bitstream_io` (bits) and `byteorder` (whole bytes). Bits in their usual form, over cursors, so that calls with several widths share a function;
//! and in their best form, over slices of a type of their own for each work, with the fields of a record read and written in one or two numbers.

use crate::records::*;
use crate::slices::{Room, Slice};
use bitstream_io::{BigEndian as Msb, BitRead, BitReader, BitWrite, BitWriter, LittleEndian as Lsb};
use byteorder::{BigEndian, LittleEndian, ReadBytesExt, WriteBytesExt};
use std::io::{self, Cursor, Read, Write};

fn each<T>(out: &mut [T], mut one: impl FnMut() -> io::Result<T>) -> bool {
    for to in out {
        match one() {
            Ok(v) => *to = v,
            Err(_) => return false,
        }
    }
    true
}

fn head<R: Read>(r: &mut BitReader<R, Msb>) -> io::Result<Head> {
    let version = r.read(4)?;
    let words = r.read(4)?;
    let service = r.read(8)?;
    let length = r.read(16)?;
    let id = r.read(16)?;
    let flags = r.read(3)?;
    let fragment = r.read(13)?;
    let ttl = r.read(8)?;
    let protocol = r.read(8)?;
    let check = r.read(16)?;
    let source = r.read(32)?;
    let target = r.read(32)?;
    Ok(Head { source, target, length, id, fragment, check, version, words, service, flags, ttl, protocol })
}

fn put_head<W: Write>(w: &mut BitWriter<W, Msb>, h: &Head) -> io::Result<()> {
    w.write(4, h.version)?;
    w.write(4, h.words)?;
    w.write(8, h.service)?;
    w.write(16, h.length)?;
    w.write(16, h.id)?;
    w.write(3, h.flags)?;
    w.write(13, h.fragment)?;
    w.write(8, h.ttl)?;
    w.write(8, h.protocol)?;
    w.write(16, h.check)?;
    w.write(32, h.source)?;
    w.write(32, h.target)
}

#[inline]
fn head_joined<R: Read>(r: &mut BitReader<R, Msb>) -> io::Result<Head> {
    let first: u128 = r.read(128)?;
    let target = r.read(32)?;
    Ok(Head {
        source: first as u32,
        target,
        length: (first >> 96) as u16,
        id: (first >> 80) as u16,
        fragment: (first >> 64 & 0x1fff) as u16,
        check: (first >> 32) as u16,
        version: (first >> 124) as u8,
        words: (first >> 120 & 15) as u8,
        service: (first >> 112) as u8,
        flags: (first >> 77 & 7) as u8,
        ttl: (first >> 56) as u8,
        protocol: (first >> 48) as u8,
    })
}

#[inline]
fn put_head_joined<W: Write>(w: &mut BitWriter<W, Msb>, h: &Head) -> io::Result<()> {
    if h.version > 15 || h.words > 15 || h.flags > 7 || h.fragment > 0x1fff {
        return Err(io::ErrorKind::InvalidInput.into());
    }
    let kind = (h.version as u64) << 12 | (h.words as u64) << 8 | h.service as u64;
    let high = kind << 48 | (h.length as u64) << 32 | (h.id as u64) << 16 | (h.flags as u64) << 13 | h.fragment as u64;
    let low = (h.ttl as u64) << 56 | (h.protocol as u64) << 48 | (h.check as u64) << 32 | h.source as u64;
    w.write(128, (high as u128) << 64 | low as u128)?;
    w.write(32, h.target)
}

pub fn bits_heads_read(bytes: &[u8], out: &mut [Head]) -> bool {
    let mut r = BitReader::endian(Cursor::new(bytes), Msb);
    each(out, || head(&mut r))
}

pub fn bits_heads_write(all: &[Head], out: &mut [u8]) -> bool {
    let mut w = BitWriter::endian(Cursor::new(out), Msb);
    all.iter().all(|h| put_head(&mut w, h).is_ok())
}

pub fn best_heads_read(bytes: &[u8], out: &mut [Head]) -> bool {
    let mut r = BitReader::endian(Slice::<20>(bytes), Msb);
    each(out, || head_joined(&mut r))
}

pub fn best_heads_write(all: &[Head], out: &mut [u8]) -> bool {
    let mut w = BitWriter::endian(Room::<20>(out), Msb);
    all.iter().all(|h| put_head_joined(&mut w, h).is_ok())
}

macro_rules! lone {
    ($read:ident, $write:ident, $all_read:ident, $all_write:ident) => {
        pub fn $read(bytes: &[u8], out: &mut [Head]) -> bool {
            out.iter_mut().zip(bytes.chunks_exact(20)).all(|(to, part)| $all_read(part, std::slice::from_mut(to)))
        }

        pub fn $write(all: &[Head], out: &mut [u8]) -> bool {
            all.iter().zip(out.chunks_exact_mut(20)).all(|(h, part)| $all_write(std::slice::from_ref(h), part))
        }
    };
}

lone!(bits_lone_heads_read, bits_lone_heads_write, bits_heads_read, bits_heads_write);
lone!(best_lone_heads_read, best_lone_heads_write, best_heads_read, best_heads_write);

fn quads_read<R: Read>(mut r: BitReader<R, Lsb>, out: &mut [Quad]) -> bool {
    each(out, || Ok(Quad { a: r.read(32)?, b: r.read(32)?, c: r.read(32)?, d: r.read(32)? }))
}

fn quads_write<W: Write>(all: &[Quad], mut w: BitWriter<W, Lsb>) -> bool {
    let mut one = |q: &Quad| {
        w.write(32, q.a)?;
        w.write(32, q.b)?;
        w.write(32, q.c)?;
        w.write(32, q.d)
    };
    all.iter().all(|q| one(q).is_ok())
}

fn signals_read<R: Read>(mut r: BitReader<R, Lsb>, out: &mut [Signals]) -> bool {
    each(out, || {
        let speed = r.read(12)?;
        let gear = r.read(3)?;
        let brake = r.read(1)?;
        let torque = r.read(16)?;
        let angle = r.read(10)?;
        Ok(Signals { speed, torque, angle, gear, brake })
    })
}

fn signals_write<W: Write>(all: &[Signals], mut w: BitWriter<W, Lsb>) -> bool {
    let mut one = |s: &Signals| {
        w.write(12, s.speed)?;
        w.write(3, s.gear)?;
        w.write(1, s.brake)?;
        w.write(16, s.torque)?;
        w.write(10, s.angle)
    };
    all.iter().all(|s| one(s).is_ok()) && w.byte_align().is_ok()
}

// The four as one number.
fn quads_joined_read<R: Read>(mut r: BitReader<R, Lsb>, out: &mut [Quad]) -> bool {
    each(out, || {
        let all: u128 = r.read(128)?;
        Ok(Quad { a: all as u32, b: (all >> 32) as u32, c: (all >> 64) as u32, d: (all >> 96) as u32 })
    })
}

fn quads_joined_write<W: Write>(all: &[Quad], mut w: BitWriter<W, Lsb>) -> bool {
    let mut one = |q: &Quad| w.write(128, (q.d as u128) << 96 | (q.c as u128) << 64 | (q.b as u128) << 32 | q.a as u128);
    all.iter().all(|q| one(q).is_ok())
}

// The five as one number.
fn fives_joined_read<R: Read>(mut r: BitReader<R, Msb>, out: &mut [Five]) -> bool {
    each(out, || {
        let all: u128 = r.read(80)?;
        let (b, c, d) = ((all >> 56) as u16, (all >> 24) as u32, (all >> 8) as u16);
        Ok(Five { c, b, d, a: (all >> 72) as u8, e: all as u8 })
    })
}

fn fives_joined_write<W: Write>(all: &[Five], mut w: BitWriter<W, Msb>) -> bool {
    let mut one = |f: &Five| {
        let high = (f.a as u128) << 72 | (f.b as u128) << 56 | (f.c as u128) << 24;
        w.write(80, high | (f.d as u128) << 8 | f.e as u128)
    };
    all.iter().all(|f| one(f).is_ok())
}

// The 42 bits as one number.
fn signals_joined_read<R: Read>(mut r: BitReader<R, Lsb>, out: &mut [Signals]) -> bool {
    each(out, || {
        let word: u64 = r.read(42)?;
        Ok(Signals {
            speed: (word & 0xfff) as u16,
            torque: (word >> 16) as u16,
            angle: (word >> 32) as u16,
            gear: (word >> 12 & 7) as u8,
            brake: (word >> 15 & 1) as u8,
        })
    })
}

fn signals_joined_write<W: Write>(all: &[Signals], mut w: BitWriter<W, Lsb>) -> bool {
    let mut one = |s: &Signals| {
        if s.speed > 0xfff || s.gear > 7 || s.brake > 1 || s.angle > 0x3ff {
            return Err(io::ErrorKind::InvalidInput.into());
        }
        let low = s.speed as u64 | (s.gear as u64) << 12 | (s.brake as u64) << 15;
        w.write(42, low | (s.torque as u64) << 16 | (s.angle as u64) << 32)
    };
    all.iter().all(|s| one(s).is_ok()) && w.byte_align().is_ok()
}

fn samples_read<R: Read>(mut r: BitReader<R, Msb>, out: &mut [u16]) -> bool {
    each(out, || r.read(10))
}

fn samples_write<W: Write>(all: &[u16], mut w: BitWriter<W, Msb>) -> bool {
    all.iter().all(|v| w.write(10, *v).is_ok()) && w.byte_align().is_ok()
}

fn signed_samples_read<R: Read>(mut r: BitReader<R, Msb>, out: &mut [i16]) -> bool {
    each(out, || r.read_signed(10))
}

fn signed_samples_write<W: Write>(all: &[i16], mut w: BitWriter<W, Msb>) -> bool {
    all.iter().all(|v| w.write_signed(10, *v).is_ok()) && w.byte_align().is_ok()
}

fn words_read<R: Read>(mut r: BitReader<R, Msb>, out: &mut [Wide]) -> bool {
    each(out, || Ok(r.read::<u128>(128)?.into()))
}

fn words_write<W: Write>(all: &[Wide], mut w: BitWriter<W, Msb>) -> bool {
    all.iter().all(|v| w.write(128, v.number()).is_ok())
}

fn hundreds_read<R: Read>(mut r: BitReader<R, Msb>, out: &mut [Wide]) -> bool {
    each(out, || Ok(r.read::<u128>(100)?.into()))
}

fn hundreds_write<W: Write>(all: &[Wide], mut w: BitWriter<W, Msb>) -> bool {
    all.iter().all(|v| w.write(100, v.number()).is_ok()) && w.byte_align().is_ok()
}

pub fn bits_runs_read(bytes: &[u8], behind: usize, run: usize, out: &mut [u8]) -> bool {
    let mut r = BitReader::endian(Cursor::new(bytes), Msb);
    if r.skip(behind as u32).is_err() {
        return false;
    }
    out.chunks_exact_mut(run).all(|part| r.read_bytes(part).is_ok())
}

pub fn bits_runs_write(bytes: &[u8], behind: usize, run: usize, out: &mut [u8]) -> bool {
    let mut w = BitWriter::endian(Cursor::new(out), Msb);
    if behind > 0 && w.write(behind as u32, 0u8).is_err() {
        return false;
    }
    bytes.chunks_exact(run).all(|part| w.write_bytes(part).is_ok()) && w.byte_align().is_ok()
}

fn counted_read<R: Read>(mut r: BitReader<R, Msb>, out: &mut [u16]) -> bool {
    let mut items = Vec::<u16>::new();
    for _ in 0..out.len() {
        match r.read(16) {
            Ok(v) => items.push(v),
            Err(_) => return false,
        }
    }
    out.copy_from_slice(&items);
    true
}

fn counted_write<W: Write>(all: &[u16], mut w: BitWriter<W, Msb>) -> bool {
    all.iter().all(|v| w.write(16, *v).is_ok())
}

fn fives_read<R: Read>(mut r: BitReader<R, Msb>, out: &mut [Five]) -> bool {
    each(out, || {
        let a = r.read(8)?;
        let b = r.read(16)?;
        let c = r.read(32)?;
        let d = r.read(16)?;
        let e = r.read(8)?;
        Ok(Five { c, b, d, a, e })
    })
}

fn fives_write<W: Write>(all: &[Five], mut w: BitWriter<W, Msb>) -> bool {
    let mut one = |f: &Five| {
        w.write(8, f.a)?;
        w.write(16, f.b)?;
        w.write(32, f.c)?;
        w.write(16, f.d)?;
        w.write(8, f.e)
    };
    all.iter().all(|f| one(f).is_ok())
}

// A work in one of the forms.
macro_rules! form {
    ($read:ident, $write:ident, $value:ty, $order:ident, $read_all:ident, $write_all:ident, $source:expr, $sink:expr) => {
        pub fn $read(bytes: &[u8], out: &mut [$value]) -> bool {
            $read_all(BitReader::endian($source(bytes), $order), out)
        }

        pub fn $write(all: &[$value], out: &mut [u8]) -> bool {
            $write_all(all, BitWriter::endian($sink(out), $order))
        }
    };
}

form!(bits_quads_read, bits_quads_write, Quad, Lsb, quads_read, quads_write, Cursor::new, Cursor::new);
form!(best_quads_read, best_quads_write, Quad, Lsb, quads_joined_read, quads_joined_write, Slice::<21>, Room::<21>);
form!(bits_signals_read, bits_signals_write, Signals, Lsb, signals_read, signals_write, Cursor::new, Cursor::new);
form!(best_signals_read, best_signals_write, Signals, Lsb, signals_joined_read, signals_joined_write, Slice::<22>, Room::<22>);
form!(bits_samples_read, bits_samples_write, u16, Msb, samples_read, samples_write, Cursor::new, Cursor::new);
form!(best_samples_read, best_samples_write, u16, Msb, samples_read, samples_write, Slice::<23>, Room::<23>);
form!(bits_signed_samples_read, bits_signed_samples_write, i16, Msb, signed_samples_read, signed_samples_write, Cursor::new, Cursor::new);
form!(best_signed_samples_read, best_signed_samples_write, i16, Msb, signed_samples_read, signed_samples_write, Slice::<24>, Room::<24>);
form!(bits_words_read, bits_words_write, Wide, Msb, words_read, words_write, Cursor::new, Cursor::new);
form!(best_words_read, best_words_write, Wide, Msb, words_read, words_write, Slice::<25>, Room::<25>);
form!(bits_hundreds_read, bits_hundreds_write, Wide, Msb, hundreds_read, hundreds_write, Cursor::new, Cursor::new);
form!(best_hundreds_read, best_hundreds_write, Wide, Msb, hundreds_read, hundreds_write, Slice::<26>, Room::<26>);
form!(bits_counted_read, bits_counted_write, u16, Msb, counted_read, counted_write, Cursor::new, Cursor::new);
form!(best_counted_read, best_counted_write, u16, Msb, counted_read, counted_write, Slice::<27>, Room::<27>);
form!(bits_fives_read, bits_fives_write, Five, Msb, fives_read, fives_write, Cursor::new, Cursor::new);
form!(best_fives_read, best_fives_write, Five, Msb, fives_joined_read, fives_joined_write, Slice::<28>, Room::<28>);

pub fn bytes_quads_read(bytes: &[u8], out: &mut [Quad]) -> bool {
    let mut r = Cursor::new(bytes);
    each(out, || {
        Ok(Quad {
            a: r.read_u32::<LittleEndian>()?,
            b: r.read_u32::<LittleEndian>()?,
            c: r.read_u32::<LittleEndian>()?,
            d: r.read_u32::<LittleEndian>()?,
        })
    })
}

pub fn bytes_quads_write(all: &[Quad], out: &mut [u8]) -> bool {
    let mut w = Cursor::new(out);
    let mut one = |q: &Quad| {
        w.write_u32::<LittleEndian>(q.a)?;
        w.write_u32::<LittleEndian>(q.b)?;
        w.write_u32::<LittleEndian>(q.c)?;
        w.write_u32::<LittleEndian>(q.d)
    };
    all.iter().all(|q| one(q).is_ok())
}

pub fn bytes_counted_read(bytes: &[u8], out: &mut [u16]) -> bool {
    let mut r = Cursor::new(bytes);
    let mut items = Vec::new();
    for _ in 0..out.len() {
        match r.read_u16::<BigEndian>() {
            Ok(v) => items.push(v),
            Err(_) => return false,
        }
    }
    out.copy_from_slice(&items);
    true
}

pub fn bytes_counted_write(all: &[u16], out: &mut [u8]) -> bool {
    let mut w = Cursor::new(out);
    all.iter().all(|v| w.write_u16::<BigEndian>(*v).is_ok())
}

pub fn bytes_fives_read(bytes: &[u8], out: &mut [Five]) -> bool {
    let mut r = Cursor::new(bytes);
    each(out, || {
        let a = r.read_u8()?;
        let b = r.read_u16::<BigEndian>()?;
        let c = r.read_u32::<BigEndian>()?;
        let d = r.read_u16::<BigEndian>()?;
        let e = r.read_u8()?;
        Ok(Five { c, b, d, a, e })
    })
}

pub fn bytes_fives_write(all: &[Five], out: &mut [u8]) -> bool {
    let mut w = Cursor::new(out);
    let mut one = |f: &Five| {
        w.write_u8(f.a)?;
        w.write_u16::<BigEndian>(f.b)?;
        w.write_u32::<BigEndian>(f.c)?;
        w.write_u16::<BigEndian>(f.d)?;
        w.write_u8(f.e)
    };
    all.iter().all(|f| one(f).is_ok())
}

pub fn bytes_runs_write(bytes: &[u8], run: usize, out: &mut [u8]) -> bool {
    let mut w = Cursor::new(out);
    bytes.chunks_exact(run).all(|part| w.write_all(part).is_ok())
}
