//! Each part by hand, in safe Rust: read from bytes at a place, and written there.

use crate::records::PartFields;

/// A part of which callers have fields.
pub trait Part {
    /// How many places a byte has.
    const PLACES: usize = 1;

    fn read(bytes: &[u8], at: &mut usize) -> Option<PartFields>;

    fn write(fields: &PartFields, out: &mut [u8], at: &mut usize) -> Option<()>;
}

pub fn read<P: Part>(bytes: &[u8], out: &mut [PartFields]) -> bool {
    let mut at = 0;
    for to in out {
        let Some(read) = P::read(bytes, &mut at) else { return false };
        *to = read;
    }
    true
}

pub fn write<P: Part>(from: &[PartFields], out: &mut [u8]) -> bool {
    let mut at = 0;
    from.iter().all(|fields| P::write(fields, out, &mut at).is_some())
}

// The bytes of a part that has as many in each value.
#[inline(always)]
pub fn take<'a, const N: usize>(bytes: &'a [u8], at: &mut usize) -> Option<&'a [u8; N]> {
    let taken = bytes.get(*at..)?.first_chunk()?;
    *at += N;
    Some(taken)
}

#[inline(always)]
pub fn put<const N: usize>(given: [u8; N], out: &mut [u8], at: &mut usize) -> Option<()> {
    *out.get_mut(*at..)?.first_chunk_mut()? = given;
    *at += N;
    Some(())
}

pub const NONE: PartFields = PartFields { number: 0, short: 0, byte: 0, small: 0 };

/// A flag and fifteen bits, and a number after them if the flag is set.
pub struct Optional;

impl Part for Optional {
    #[inline(always)]
    fn read(bytes: &[u8], at: &mut usize) -> Option<PartFields> {
        let front = u16::from_be_bytes(*take(bytes, at)?);
        let short = front & 0x7FFF;
        if front >> 15 == 0 {
            return Some(PartFields { short, ..NONE });
        }
        let number = u32::from_be_bytes(*take(bytes, at)?);
        Some(PartFields { number, short, byte: 1, small: 0 })
    }

    #[inline(always)]
    fn write(fields: &PartFields, out: &mut [u8], at: &mut usize) -> Option<()> {
        if fields.short > 0x7FFF {
            return None;
        }
        if fields.byte == 0 {
            return put(fields.short.to_be_bytes(), out, at);
        }
        let [a, b] = (0x8000 | fields.short).to_be_bytes();
        let [c, d, e, f] = fields.number.to_be_bytes();
        put([a, b, c, d, e, f], out, at)
    }
}

/// A length in bytes, and two numbers.
pub struct SizedBy;

impl Part for SizedBy {
    #[inline(always)]
    fn read(bytes: &[u8], at: &mut usize) -> Option<PartFields> {
        let [a, b, c, d, e, f] = *take(bytes, at)?;
        if [a, b] != [0, 4] {
            return None;
        }
        Some(PartFields { number: u32::from_be_bytes([c, d, e, f]), short: 4, ..NONE })
    }

    #[inline(always)]
    fn write(fields: &PartFields, out: &mut [u8], at: &mut usize) -> Option<()> {
        if fields.short != 4 {
            return None;
        }
        let [c, d, e, f] = fields.number.to_be_bytes();
        put([0, 4, c, d, e, f], out, at)
    }
}

/// Three bits, and five zeros.
pub struct ZeroBits;

impl Part for ZeroBits {
    #[inline(always)]
    fn read(bytes: &[u8], at: &mut usize) -> Option<PartFields> {
        let [byte] = *take(bytes, at)?;
        if byte & 0x1F != 0 {
            return None;
        }
        Some(PartFields { byte: byte >> 5, ..NONE })
    }

    #[inline(always)]
    fn write(fields: &PartFields, out: &mut [u8], at: &mut usize) -> Option<()> {
        if fields.byte > 7 {
            return None;
        }
        put([fields.byte << 5], out, at)
    }
}

/// A number, and six zeros.
pub struct ZeroBytes;

impl Part for ZeroBytes {
    #[inline(always)]
    fn read(bytes: &[u8], at: &mut usize) -> Option<PartFields> {
        let [a, b, zeros @ ..]: [u8; 8] = *take(bytes, at)?;
        if zeros != [0; 6] {
            return None;
        }
        Some(PartFields { short: u16::from_be_bytes([a, b]), ..NONE })
    }

    #[inline(always)]
    fn write(fields: &PartFields, out: &mut [u8], at: &mut usize) -> Option<()> {
        let [a, b] = fields.short.to_be_bytes();
        put([a, b, 0, 0, 0, 0, 0, 0], out, at)
    }
}

/// A number that is always the same, and another.
pub struct Magic;

impl Part for Magic {
    #[inline(always)]
    fn read(bytes: &[u8], at: &mut usize) -> Option<PartFields> {
        let [a, b, c, d] = *take(bytes, at)?;
        if [a, b] != *b"MZ" {
            return None;
        }
        Some(PartFields { short: u16::from_be_bytes([c, d]), ..NONE })
    }

    #[inline(always)]
    fn write(fields: &PartFields, out: &mut [u8], at: &mut usize) -> Option<()> {
        let [c, d] = fields.short.to_be_bytes();
        put([b'M', b'Z', c, d], out, at)
    }
}

pub const PICTURE: [u8; 8] = *b"\x89PNG\r\n\x1A\n";

/// Eight bytes that are always the same, and a number.
pub struct MagicBytes;

impl Part for MagicBytes {
    #[inline(always)]
    fn read(bytes: &[u8], at: &mut usize) -> Option<PartFields> {
        let [picture @ .., a, b]: [u8; 10] = *take(bytes, at)?;
        if picture != PICTURE {
            return None;
        }
        Some(PartFields { short: u16::from_be_bytes([a, b]), ..NONE })
    }

    #[inline(always)]
    fn write(fields: &PartFields, out: &mut [u8], at: &mut usize) -> Option<()> {
        let mut file = [0; 10];
        file[..8].copy_from_slice(&PICTURE);
        file[8..].copy_from_slice(&fields.short.to_be_bytes());
        put(file, out, at)
    }
}

/// Four bits that are at least five, and four bits.
pub struct Assert;

impl Part for Assert {
    #[inline(always)]
    fn read(bytes: &[u8], at: &mut usize) -> Option<PartFields> {
        let [byte] = *take(bytes, at)?;
        if byte < 0x50 {
            return None;
        }
        Some(PartFields { byte: byte >> 4, small: byte & 15, ..NONE })
    }

    #[inline(always)]
    fn write(fields: &PartFields, out: &mut [u8], at: &mut usize) -> Option<()> {
        if fields.byte < 5 || fields.byte > 15 || fields.small > 15 {
            return None;
        }
        put([fields.byte << 4 | fields.small], out, at)
    }
}

/// A byte, and a number of as many bits.
pub struct UnderHead;

impl Part for UnderHead {
    const PLACES: usize = 8;

    #[inline(always)]
    fn read(bytes: &[u8], at: &mut usize) -> Option<PartFields> {
        let rest = bytes.get(*at / 8..)?;
        let eight = match rest.first_chunk::<8>() {
            Some(eight) => *eight,
            None => {
                let mut eight = [0; 8];
                eight[..rest.len()].copy_from_slice(rest);
                eight
            }
        };
        let window = u64::from_be_bytes(eight) << (*at % 8);
        let width = window >> 56;
        if width > 32 || *at + 8 + width as usize > 8 * bytes.len() {
            return None;
        }
        *at += 8 + width as usize;
        Some(PartFields { number: (window << 8 >> 32 >> (32 - width)) as u32, byte: width as u8, ..NONE })
    }

    #[inline(always)]
    fn write(fields: &PartFields, out: &mut [u8], at: &mut usize) -> Option<()> {
        let width = fields.byte as usize;
        if width > 32 || (fields.number as u64) >> width != 0 {
            return None;
        }
        let bits = (width as u64) << 56 | (fields.number as u64) << (56 - width);
        let (place, behind) = (*at / 8, *at % 8);
        *at += 8 + width;
        let kept = *out.get(place)? & !(0xFF >> behind);
        let word = ((kept as u64) << 56 | bits >> behind).to_be_bytes();
        let bytes = at.div_ceil(8) - place;
        match out[place..].first_chunk_mut::<8>() {
            Some(to) => *to = word,
            None => out.get_mut(place..place + bytes)?.copy_from_slice(&word[..bytes]),
        }
        Some(())
    }
}

/// A type, and what it chooses: a number, nothing, or a byte after any other type.
pub struct Enum;

impl Part for Enum {
    #[inline(always)]
    fn read(bytes: &[u8], at: &mut usize) -> Option<PartFields> {
        let short = u16::from_be_bytes(*take(bytes, at)?);
        let number = match short {
            0x0800 => u16::from_be_bytes(*take(bytes, at)?) as u32,
            0x0806 => 0,
            _ => u8::from_be_bytes(*take(bytes, at)?) as u32,
        };
        Some(PartFields { number, short, ..NONE })
    }

    #[inline(always)]
    fn write(fields: &PartFields, out: &mut [u8], at: &mut usize) -> Option<()> {
        let [a, b] = fields.short.to_be_bytes();
        let [.., c, d] = fields.number.to_be_bytes();
        match fields.short {
            0x0800 => put([a, b, c, d], out, at),
            0x0806 => put([a, b], out, at),
            _ => put([a, b, d], out, at),
        }
    }
}

/// A version and a protocol, and what the protocol chooses: a number, or a byte.
pub struct ChosenBy;

impl Part for ChosenBy {
    #[inline(always)]
    fn read(bytes: &[u8], at: &mut usize) -> Option<PartFields> {
        let [front] = *take(bytes, at)?;
        let short = if front & 15 == 1 {
            u16::from_be_bytes(*take(bytes, at)?)
        } else {
            u8::from_be_bytes(*take(bytes, at)?) as u16
        };
        Some(PartFields { number: 0, short, byte: front >> 4, small: front & 15 })
    }

    #[inline(always)]
    fn write(fields: &PartFields, out: &mut [u8], at: &mut usize) -> Option<()> {
        if fields.byte > 15 || fields.small > 15 {
            return None;
        }
        let front = fields.byte << 4 | fields.small;
        let [a, b] = fields.short.to_be_bytes();
        if fields.small == 1 {
            put([front, a, b], out, at)
        } else {
            put([front, b], out, at)
        }
    }
}

/// A bit that is on or off, and seven bits.
pub struct Mapped;

impl Part for Mapped {
    #[inline(always)]
    fn read(bytes: &[u8], at: &mut usize) -> Option<PartFields> {
        let [byte] = *take(bytes, at)?;
        Some(PartFields { byte: byte & 0x7F, small: byte >> 7, ..NONE })
    }

    #[inline(always)]
    fn write(fields: &PartFields, out: &mut [u8], at: &mut usize) -> Option<()> {
        if fields.byte > 0x7F {
            return None;
        }
        put([((fields.small != 0) as u8) << 7 | fields.byte], out, at)
    }
}
