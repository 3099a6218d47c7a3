//! Each header by hand, in safe Rust: its length is checked once.

use crate::records::*;
use std::hint::black_box;

fn be16(b: &[u8], at: usize) -> u16 {
    u16::from_be_bytes([b[at], b[at + 1]])
}

fn be32(b: &[u8], at: usize) -> u32 {
    u32::from_be_bytes([b[at], b[at + 1], b[at + 2], b[at + 3]])
}

#[inline(always)]
pub fn udp(b: &[u8; 8]) -> UdpFields {
    UdpFields { source: be16(b, 0), destination: be16(b, 2), length: be16(b, 4), checksum: be16(b, 6) }
}

#[inline(always)]
pub fn udp_bytes(udp: &UdpFields) -> [u8; 8] {
    let mut b = [0; 8];
    b[0..2].copy_from_slice(&udp.source.to_be_bytes());
    b[2..4].copy_from_slice(&udp.destination.to_be_bytes());
    b[4..6].copy_from_slice(&udp.length.to_be_bytes());
    b[6..8].copy_from_slice(&udp.checksum.to_be_bytes());
    b
}

#[inline(always)]
pub fn ipv4(b: &[u8; 20]) -> Option<Ipv4Fields> {
    if b[0] >> 4 != 4 {
        return None;
    }
    Some(Ipv4Fields {
        words: b[0] & 15,
        service: b[1] >> 2,
        congestion: b[1] & 3,
        total_length: be16(b, 2),
        identification: be16(b, 4),
        flags: b[6] >> 5,
        fragment_offset: be16(b, 6) & 0x1fff,
        time_to_live: b[8],
        protocol: b[9],
        checksum: be16(b, 10),
        source: be32(b, 12),
        destination: be32(b, 16),
    })
}

#[inline(always)]
pub fn ipv4_bytes(front: &Ipv4Fields) -> Option<[u8; 20]> {
    if front.words > 15 || front.service > 63 || front.congestion > 3 || front.flags > 7 || front.fragment_offset > 0x1fff {
        return None;
    }
    let mut b = [0; 20];
    b[0] = 0x40 | front.words;
    b[1] = front.service << 2 | front.congestion;
    b[2..4].copy_from_slice(&front.total_length.to_be_bytes());
    b[4..6].copy_from_slice(&front.identification.to_be_bytes());
    b[6..8].copy_from_slice(&((front.flags as u16) << 13 | front.fragment_offset).to_be_bytes());
    b[8] = front.time_to_live;
    b[9] = front.protocol;
    b[10..12].copy_from_slice(&front.checksum.to_be_bytes());
    b[12..16].copy_from_slice(&front.source.to_be_bytes());
    b[16..20].copy_from_slice(&front.destination.to_be_bytes());
    Some(b)
}

#[inline(always)]
fn can(b: &[u8; 8]) -> Option<CanFields> {
    let first = u16::from_le_bytes([b[0], b[1]]);
    Some(CanFields {
        wheel: (first << 4) as i16 >> 4,
        gear: (first >> 12) as u8,
        torque: be16(b, 2) as i16,
        flags: b[4] & 7,
        padding: b[4] >> 3,
        yaw: i32::from_be_bytes([b[5], b[6], b[7], 0]) >> 8,
    })
}

#[inline(always)]
fn can_bytes(car: &CanFields) -> Option<[u8; 8]> {
    let far = car.wheel < -2048 || car.wheel > 2047 || car.yaw < -(1 << 23) || car.yaw >= 1 << 23;
    if far || car.gear > 15 || car.flags > 7 || car.padding > 31 {
        return None;
    }
    let mut b = [0; 8];
    b[0..2].copy_from_slice(&((car.wheel as u16 & 0xfff) | (car.gear as u16) << 12).to_le_bytes());
    b[2..4].copy_from_slice(&car.torque.to_be_bytes());
    b[4] = car.flags | car.padding << 3;
    b[5..8].copy_from_slice(&car.yaw.to_be_bytes()[1..]);
    Some(b)
}

macro_rules! each {
    ($fields:ty, $bytes:literal, $one:expr, $put:expr, $read:ident, $unpack:ident, $write:ident, $pack:ident) => {
        pub fn $read(bytes: &[u8], out: &mut [$fields]) -> bool {
            let mut parts = bytes.chunks_exact($bytes);
            for to in out {
                let Some(part) = parts.next() else { return false };
                let Some(record) = ($one)(part.try_into().unwrap()) else { return false };
                *to = record;
            }
            true
        }

        /// Each from a slice that could be any.
        pub fn $unpack(bytes: &[u8], out: &mut [$fields]) -> bool {
            let mut parts = bytes.chunks_exact($bytes);
            for to in out {
                let Some(part) = parts.next() else { return false };
                let Some(bytes) = black_box(part).first_chunk() else { return false };
                let Some(record) = ($one)(bytes) else { return false };
                *to = record;
            }
            true
        }

        pub fn $write(from: &[$fields], out: &mut [u8]) -> bool {
            let mut parts = out.chunks_exact_mut($bytes);
            for record in from {
                let Some(part) = parts.next() else { return false };
                let Some(bytes) = ($put)(record) else { return false };
                part.copy_from_slice(&bytes);
            }
            true
        }

        /// Each in a vector of its own.
        pub fn $pack(from: &[$fields], out: &mut [u8]) -> bool {
            let mut parts = out.chunks_exact_mut($bytes);
            for record in from {
                let Some(part) = parts.next() else { return false };
                let Some(bytes) = ($put)(record) else { return false };
                part.copy_from_slice(&black_box(bytes.to_vec()));
            }
            true
        }
    };
}

each!(UdpFields, 8, |b: &[u8; 8]| Some(udp(b)), |udp: &UdpFields| Some(udp_bytes(udp)), udp_read, udp_unpack, udp_write, udp_pack);
each!(Ipv4Fields, 20, ipv4, ipv4_bytes, ipv4_read, ipv4_unpack, ipv4_write, ipv4_pack);
each!(CanFields, 8, can, can_bytes, can_read, can_unpack, can_write, can_pack);

pub fn udp_grow(from: &[UdpFields], out: &mut [u8]) -> bool {
    let mut all = Vec::new();
    for record in from {
        all.extend_from_slice(&udp_bytes(record));
    }
    out.copy_from_slice(black_box(&all));
    true
}

fn udps(bytes: &[u8], count: usize) -> Option<Vec<UdpFields>> {
    let bytes = bytes.get(..8 * count)?;
    Some(bytes.chunks_exact(8).map(|part| udp(part.try_into().unwrap())).collect())
}

pub fn udp_counted(bytes: &[u8], out: &mut [UdpFields]) -> bool {
    let Some(all) = udps(bytes, out.len()) else { return false };
    out.copy_from_slice(black_box(&all));
    true
}

pub fn udp_counted_round(bytes: &[u8], count: usize, out: &mut [u8]) -> bool {
    let Some(all) = udps(bytes, count) else { return false };
    udp_write(black_box(&all), out)
}
