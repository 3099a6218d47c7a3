//! The crate `bitstream_io`: in its usual form over cursors, where calls with several widths share a function, and in its best form over slices, where
//! the fields of a record are read and written in one or two numbers.

use crate::records::*;
use crate::slices::{cursor, cursor_mut, room, slice, Grown};
use bitstream_io::{BigEndian as Msb, BitRead, BitReader, BitWrite, BitWriter, LittleEndian as Lsb};
use std::hint::black_box;
use std::io::{self, Read, Write};

fn refused() -> io::Error {
    io::ErrorKind::InvalidData.into()
}

pub fn udp<R: Read>(r: &mut BitReader<R, Msb>) -> io::Result<UdpFields> {
    Ok(UdpFields { source: r.read(16)?, destination: r.read(16)?, length: r.read(16)?, checksum: r.read(16)? })
}

pub fn put_udp<W: Write>(w: &mut BitWriter<W, Msb>, udp: &UdpFields) -> io::Result<()> {
    w.write(16, udp.source)?;
    w.write(16, udp.destination)?;
    w.write(16, udp.length)?;
    w.write(16, udp.checksum)
}

fn ipv4<R: Read>(r: &mut BitReader<R, Msb>) -> io::Result<Ipv4Fields> {
    if r.read::<u8>(4)? != 4 {
        return Err(refused());
    }
    let words = r.read(4)?;
    let service = r.read(6)?;
    let congestion = r.read(2)?;
    let total_length = r.read(16)?;
    let identification = r.read(16)?;
    let flags = r.read(3)?;
    let fragment_offset = r.read(13)?;
    let time_to_live = r.read(8)?;
    let protocol = r.read(8)?;
    let checksum = r.read(16)?;
    let source = r.read(32)?;
    let destination = r.read(32)?;
    Ok(Ipv4Fields {
        source,
        destination,
        total_length,
        identification,
        fragment_offset,
        checksum,
        words,
        service,
        congestion,
        flags,
        time_to_live,
        protocol,
    })
}

fn put_ipv4<W: Write>(w: &mut BitWriter<W, Msb>, front: &Ipv4Fields) -> io::Result<()> {
    w.write(4, 4u8)?;
    w.write(4, front.words)?;
    w.write(6, front.service)?;
    w.write(2, front.congestion)?;
    w.write(16, front.total_length)?;
    w.write(16, front.identification)?;
    w.write(3, front.flags)?;
    w.write(13, front.fragment_offset)?;
    w.write(8, front.time_to_live)?;
    w.write(8, front.protocol)?;
    w.write(16, front.checksum)?;
    w.write(32, front.source)?;
    w.write(32, front.destination)
}

#[inline]
pub fn udp_joined<R: Read>(r: &mut BitReader<R, Msb>) -> io::Result<UdpFields> {
    let all: u64 = r.read(64)?;
    Ok(UdpFields {
        source: (all >> 48) as u16,
        destination: (all >> 32) as u16,
        length: (all >> 16) as u16,
        checksum: all as u16,
    })
}

#[inline]
pub fn put_udp_joined<W: Write>(w: &mut BitWriter<W, Msb>, udp: &UdpFields) -> io::Result<()> {
    let high = (udp.source as u64) << 48 | (udp.destination as u64) << 32;
    w.write(64, high | (udp.length as u64) << 16 | udp.checksum as u64)
}

#[inline]
fn ipv4_joined<R: Read>(r: &mut BitReader<R, Msb>) -> io::Result<Ipv4Fields> {
    let first: u128 = r.read(128)?;
    let destination: u32 = r.read(32)?;
    if first >> 124 != 4 {
        return Err(refused());
    }
    Ok(Ipv4Fields {
        source: first as u32,
        destination,
        total_length: (first >> 96) as u16,
        identification: (first >> 80) as u16,
        fragment_offset: (first >> 64 & 0x1fff) as u16,
        checksum: (first >> 32) as u16,
        words: (first >> 120 & 15) as u8,
        service: (first >> 114 & 63) as u8,
        congestion: (first >> 112 & 3) as u8,
        flags: (first >> 77 & 7) as u8,
        time_to_live: (first >> 56) as u8,
        protocol: (first >> 48) as u8,
    })
}

#[inline]
fn put_ipv4_joined<W: Write>(w: &mut BitWriter<W, Msb>, front: &Ipv4Fields) -> io::Result<()> {
    if front.words > 15 || front.service > 63 || front.congestion > 3 || front.flags > 7 || front.fragment_offset > 0x1fff {
        return Err(refused());
    }
    let kind = 4 << 12 | (front.words as u64) << 8 | (front.service as u64) << 2 | front.congestion as u64;
    let part = (front.flags as u64) << 13 | front.fragment_offset as u64;
    let next = (front.time_to_live as u64) << 8 | front.protocol as u64;
    let high = kind << 48 | (front.total_length as u64) << 32 | (front.identification as u64) << 16 | part;
    let low = next << 48 | (front.checksum as u64) << 32 | front.source as u64;
    w.write(128, (high as u128) << 64 | low as u128)?;
    w.write(32, front.destination)
}

// The low bits come first; numbers whose high byte comes first are turned.
fn can<R: Read>(r: &mut BitReader<R, Lsb>) -> io::Result<CanFields> {
    let wheel = r.read_signed(12)?;
    let gear = r.read(4)?;
    let torque = r.read::<u16>(16)?.swap_bytes() as i16;
    let flags = r.read(3)?;
    let padding = r.read(5)?;
    let yaw = r.read::<u32>(24)?.swap_bytes() as i32 >> 8;
    Ok(CanFields { yaw, wheel, torque, gear, flags, padding })
}

fn put_can<W: Write>(w: &mut BitWriter<W, Lsb>, car: &CanFields) -> io::Result<()> {
    if car.yaw < -(1 << 23) || car.yaw >= 1 << 23 {
        return Err(refused());
    }
    w.write_signed(12, car.wheel)?;
    w.write(4, car.gear)?;
    w.write(16, (car.torque as u16).swap_bytes())?;
    w.write(3, car.flags)?;
    w.write(5, car.padding)?;
    w.write(24, ((car.yaw as u32) << 8).swap_bytes())
}

#[inline]
fn can_joined<R: Read>(r: &mut BitReader<R, Lsb>) -> io::Result<CanFields> {
    let all: u64 = r.read(64)?;
    Ok(CanFields {
        wheel: (all << 4) as i16 >> 4,
        gear: (all >> 12 & 15) as u8,
        torque: ((all >> 16) as u16).swap_bytes() as i16,
        flags: (all >> 32 & 7) as u8,
        padding: (all >> 35 & 31) as u8,
        yaw: ((all >> 40) as u32).swap_bytes() as i32 >> 8,
    })
}

#[inline]
fn put_can_joined<W: Write>(w: &mut BitWriter<W, Lsb>, car: &CanFields) -> io::Result<()> {
    let far = car.wheel < -2048 || car.wheel > 2047 || car.yaw < -(1 << 23) || car.yaw >= 1 << 23;
    if far || car.gear > 15 || car.flags > 7 || car.padding > 31 {
        return Err(refused());
    }
    let first = car.wheel as u64 & 0xfff | (car.gear as u64) << 12;
    let torque = (car.torque as u16).swap_bytes() as u64;
    let yaw = ((car.yaw as u32) << 8).swap_bytes() as u64;
    w.write(64, yaw << 40 | (car.padding as u64) << 35 | (car.flags as u64) << 32 | torque << 16 | first)
}

macro_rules! each {
    ($fields:ty, $bytes:literal, $order:ident, $one:ident, $put:ident, $source:ident, $sink:ident, $vector:expr, $grown:pat => $all:expr,
     $read:ident, $unpack:ident, $write:ident, $pack:ident) => {
        pub fn $read(bytes: &[u8], out: &mut [$fields]) -> bool {
            let mut r = BitReader::endian($source::<1>(bytes), $order);
            for to in out {
                match $one(&mut r) {
                    Ok(record) => *to = record,
                    Err(_) => return false,
                }
            }
            true
        }

        /// Each by a reader of its own, from a slice that could be any.
        pub fn $unpack(bytes: &[u8], out: &mut [$fields]) -> bool {
            let mut parts = bytes.chunks_exact($bytes);
            for to in out {
                let Some(part) = parts.next() else { return false };
                match $one(&mut BitReader::endian($source::<2>(black_box(part)), $order)) {
                    Ok(record) => *to = record,
                    Err(_) => return false,
                }
            }
            true
        }

        pub fn $write(from: &[$fields], out: &mut [u8]) -> bool {
            let mut w = BitWriter::endian($sink::<3>(out), $order);
            from.iter().all(|record| $put(&mut w, record).is_ok())
        }

        /// Each in a vector of its own.
        pub fn $pack(from: &[$fields], out: &mut [u8]) -> bool {
            let mut parts = out.chunks_exact_mut($bytes);
            for record in from {
                let Some(part) = parts.next() else { return false };
                let mut w = BitWriter::endian($vector, $order);
                if $put(&mut w, record).is_err() {
                    return false;
                }
                let $grown = w.into_writer();
                part.copy_from_slice(black_box(&$all));
            }
            true
        }
    };
}

fn collected<T>(count: usize, mut one: impl FnMut() -> io::Result<T>) -> io::Result<Vec<T>> {
    let mut all = Vec::new();
    for _ in 0..count {
        all.push(one()?);
    }
    Ok(all)
}

macro_rules! counted {
    ($one:ident, $put:ident, $source:ident, $sink:ident, $vector:expr, $grown:pat => $all:expr, $counted:ident, $round:ident, $grow:ident) => {
        pub fn $counted(bytes: &[u8], out: &mut [UdpFields]) -> bool {
            let mut r = BitReader::endian($source::<4>(bytes), Msb);
            let Ok(all) = collected(out.len(), || $one(&mut r)) else { return false };
            out.copy_from_slice(black_box(&all));
            true
        }

        pub fn $round(bytes: &[u8], count: usize, out: &mut [u8]) -> bool {
            let mut r = BitReader::endian($source::<5>(bytes), Msb);
            let Ok(all) = collected(count, || $one(&mut r)) else { return false };
            let mut w = BitWriter::endian($sink::<5>(out), Msb);
            black_box(&all).iter().all(|record| $put(&mut w, record).is_ok())
        }

        pub fn $grow(from: &[UdpFields], out: &mut [u8]) -> bool {
            let mut w = BitWriter::endian($vector, Msb);
            if !from.iter().all(|record| $put(&mut w, record).is_ok()) {
                return false;
            }
            let $grown = w.into_writer();
            out.copy_from_slice(black_box(&$all));
            true
        }
    };
}

each!(UdpFields, 8, Msb, udp, put_udp, cursor, cursor_mut, Vec::new(), all => all, udp_read, udp_unpack, udp_write, udp_pack);
each!(Ipv4Fields, 20, Msb, ipv4, put_ipv4, cursor, cursor_mut, Vec::new(), all => all, ipv4_read, ipv4_unpack, ipv4_write, ipv4_pack);
each!(CanFields, 8, Lsb, can, put_can, cursor, cursor_mut, Vec::new(), all => all, can_read, can_unpack, can_write, can_pack);

counted!(udp, put_udp, cursor, cursor_mut, Vec::new(), all => all, udp_counted, udp_counted_round, udp_grow);

/// Over slices of types of their own.
pub mod best {
    use super::*;

    each!(UdpFields, 8, Msb, udp_joined, put_udp_joined, slice, room, Grown::<1>(Vec::with_capacity(8)), Grown(all) => all,
        udp_read, udp_unpack, udp_write, udp_pack);
    each!(Ipv4Fields, 20, Msb, ipv4_joined, put_ipv4_joined, slice, room, Grown::<1>(Vec::with_capacity(20)), Grown(all) => all,
        ipv4_read, ipv4_unpack, ipv4_write, ipv4_pack);
    each!(CanFields, 8, Lsb, can_joined, put_can_joined, slice, room, Grown::<1>(Vec::with_capacity(8)), Grown(all) => all,
        can_read, can_unpack, can_write, can_pack);
    counted!(udp_joined, put_udp_joined, slice, room, Grown::<2>(Vec::new()), Grown(all) => all, udp_counted, udp_counted_round, udp_grow);
}
