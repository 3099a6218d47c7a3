//! Each part by the crate `bitstream_io`, in its usual form: over cursors, as all that is read and written by it so.

use super::hand::{self, NONE};
use super::kept;
use crate::records::PartFields;
use bitstream_io::{BigEndian as Msb, BitRead, BitReader, BitWrite, BitWriter};
use std::hint::black_box;
use std::io::{self, Cursor};

type Bits<'a> = BitReader<Cursor<&'a [u8]>, Msb>;
type Put<'a> = BitWriter<Cursor<&'a mut [u8]>, Msb>;

/// A part of which callers have fields.
pub trait Part {
    fn read(r: &mut Bits) -> io::Result<PartFields>;

    fn write(w: &mut Put, fields: &PartFields) -> io::Result<()>;
}

/// A part that is kept as it was read.
pub trait Kept: kept::Kept {
    fn get(r: &mut Bits) -> io::Result<Self>;

    fn put(&self, w: &mut Put) -> io::Result<()>;
}

pub fn read<P: Part>(bytes: &[u8], out: &mut [PartFields]) -> bool {
    let mut r = BitReader::endian(Cursor::new(bytes), Msb);
    for to in out {
        let Ok(read) = P::read(&mut r) else { return false };
        *to = read;
    }
    true
}

pub fn write<P: Part>(from: &[PartFields], out: &mut [u8]) -> bool {
    let mut w = BitWriter::endian(Cursor::new(out), Msb);
    from.iter().all(|fields| P::write(&mut w, fields).is_ok()) && w.byte_align().is_ok()
}

pub fn read_kept<K: Kept>(bytes: &[u8], out: &mut [PartFields]) -> bool {
    let mut r = BitReader::endian(Cursor::new(bytes), Msb);
    for to in out {
        let Ok(kept) = K::get(&mut r) else { return false };
        *to = black_box(kept).fields();
    }
    true
}

pub fn round<K: Kept>(bytes: &[u8], count: usize, out: &mut [u8]) -> bool {
    let mut r = BitReader::endian(Cursor::new(bytes), Msb);
    let mut w = BitWriter::endian(Cursor::new(out), Msb);
    (0..count).all(|_| K::get(&mut r).and_then(|kept| black_box(kept).put(&mut w)).is_ok())
}

fn right(right: bool) -> io::Result<()> {
    if right {
        Ok(())
    } else {
        Err(io::ErrorKind::InvalidData.into())
    }
}

impl Part for hand::Optional {
    fn read(r: &mut Bits) -> io::Result<PartFields> {
        let flag = r.read_bit()?;
        let short = r.read(15)?;
        let number = if flag { r.read(32)? } else { 0 };
        Ok(PartFields { number, short, byte: flag as u8, small: 0 })
    }

    fn write(w: &mut Put, fields: &PartFields) -> io::Result<()> {
        w.write_bit(fields.byte != 0)?;
        w.write(15, fields.short)?;
        if fields.byte == 0 {
            return Ok(());
        }
        w.write(32, fields.number)
    }
}

impl Part for hand::SizedBy {
    fn read(r: &mut Bits) -> io::Result<PartFields> {
        let short = r.read(16)?;
        right(short == 4)?;
        let (high, low): (u16, u16) = (r.read(16)?, r.read(16)?);
        Ok(PartFields { number: (high as u32) << 16 | low as u32, short, ..NONE })
    }

    fn write(w: &mut Put, fields: &PartFields) -> io::Result<()> {
        right(fields.short == 4)?;
        w.write(16, fields.short)?;
        w.write(16, fields.number >> 16)?;
        w.write(16, fields.number as u16)
    }
}

impl Part for hand::ZeroBits {
    fn read(r: &mut Bits) -> io::Result<PartFields> {
        let byte = r.read(3)?;
        right(r.read::<u8>(5)? == 0)?;
        Ok(PartFields { byte, ..NONE })
    }

    fn write(w: &mut Put, fields: &PartFields) -> io::Result<()> {
        w.write(3, fields.byte)?;
        w.write(5, 0u8)
    }
}

impl Part for hand::ZeroBytes {
    fn read(r: &mut Bits) -> io::Result<PartFields> {
        let short = r.read(16)?;
        right(r.read_to_bytes::<6>()? == [0; 6])?;
        Ok(PartFields { short, ..NONE })
    }

    fn write(w: &mut Put, fields: &PartFields) -> io::Result<()> {
        w.write(16, fields.short)?;
        w.write_bytes(&[0; 6])
    }
}

impl Part for hand::Magic {
    fn read(r: &mut Bits) -> io::Result<PartFields> {
        right(r.read::<u16>(16)? == 0x4D5A)?;
        Ok(PartFields { short: r.read(16)?, ..NONE })
    }

    fn write(w: &mut Put, fields: &PartFields) -> io::Result<()> {
        w.write(16, 0x4D5Au16)?;
        w.write(16, fields.short)
    }
}

impl Part for hand::MagicBytes {
    fn read(r: &mut Bits) -> io::Result<PartFields> {
        right(r.read_to_bytes::<8>()? == hand::PICTURE)?;
        Ok(PartFields { short: r.read(16)?, ..NONE })
    }

    fn write(w: &mut Put, fields: &PartFields) -> io::Result<()> {
        w.write_bytes(&hand::PICTURE)?;
        w.write(16, fields.short)
    }
}

impl Part for hand::Assert {
    fn read(r: &mut Bits) -> io::Result<PartFields> {
        let byte = r.read(4)?;
        right(byte >= 5)?;
        Ok(PartFields { byte, small: r.read(4)?, ..NONE })
    }

    fn write(w: &mut Put, fields: &PartFields) -> io::Result<()> {
        right(fields.byte >= 5)?;
        w.write(4, fields.byte)?;
        w.write(4, fields.small)
    }
}

impl Part for hand::UnderHead {
    fn read(r: &mut Bits) -> io::Result<PartFields> {
        let byte: u8 = r.read(8)?;
        Ok(PartFields { number: r.read(byte as u32)?, byte, ..NONE })
    }

    fn write(w: &mut Put, fields: &PartFields) -> io::Result<()> {
        w.write(8, fields.byte)?;
        w.write(fields.byte as u32, fields.number)
    }
}

impl Part for hand::Enum {
    fn read(r: &mut Bits) -> io::Result<PartFields> {
        let short = r.read(16)?;
        let number = match short {
            0x0800 => r.read(16)?,
            0x0806 => 0,
            _ => r.read(8)?,
        };
        Ok(PartFields { number, short, ..NONE })
    }

    fn write(w: &mut Put, fields: &PartFields) -> io::Result<()> {
        w.write(16, fields.short)?;
        match fields.short {
            0x0800 => w.write(16, fields.number as u16),
            0x0806 => Ok(()),
            _ => w.write(8, fields.number as u8),
        }
    }
}

impl Part for hand::ChosenBy {
    fn read(r: &mut Bits) -> io::Result<PartFields> {
        let (byte, small) = (r.read(4)?, r.read(4)?);
        let short = if small == 1 { r.read(16)? } else { r.read(8)? };
        Ok(PartFields { number: 0, short, byte, small })
    }

    fn write(w: &mut Put, fields: &PartFields) -> io::Result<()> {
        w.write(4, fields.byte)?;
        w.write(4, fields.small)?;
        if fields.small == 1 {
            w.write(16, fields.short)
        } else {
            w.write(8, fields.short as u8)
        }
    }
}

impl Part for hand::Mapped {
    fn read(r: &mut Bits) -> io::Result<PartFields> {
        let small = r.read_bit()? as u8;
        Ok(PartFields { byte: r.read(7)?, small, ..NONE })
    }

    fn write(w: &mut Put, fields: &PartFields) -> io::Result<()> {
        w.write_bit(fields.small != 0)?;
        w.write(7, fields.byte)
    }
}

fn numbers(r: &mut Bits, count: usize) -> io::Result<Vec<u16>> {
    (0..count).map(|_| r.read(16)).collect()
}

impl Kept for kept::Forty {
    fn get(r: &mut Bits) -> io::Result<Self> {
        let id: u8 = r.read(8)?;
        right(id < 40)?;
        Ok(kept::Forty(id, r.read(8)?))
    }

    fn put(&self, w: &mut Put) -> io::Result<()> {
        right(self.0 < 40)?;
        w.write(8, self.0)?;
        w.write(8, self.1)
    }
}

impl Kept for kept::CountedBy {
    fn get(r: &mut Bits) -> io::Result<Self> {
        let (four, words): (u8, u8) = (r.read(4)?, r.read(4)?);
        right(words >= 5)?;
        Ok(kept::CountedBy(four << 4 | words, r.read_to_vec(4 * (words as usize - 5))?))
    }

    fn put(&self, w: &mut Put) -> io::Result<()> {
        let words = self.0 & 15;
        right(4 * words as usize == self.1.len() + 20)?;
        w.write(4, self.0 >> 4)?;
        w.write(4, words)?;
        w.write_bytes(&self.1)
    }
}

impl Kept for kept::Prefixed {
    fn get(r: &mut Bits) -> io::Result<Self> {
        let count: u8 = r.read(8)?;
        Ok(kept::Prefixed(numbers(r, count as usize)?))
    }

    fn put(&self, w: &mut Put) -> io::Result<()> {
        w.write(8, self.0.len() as u32)?;
        self.0.iter().try_for_each(|number| w.write(16, *number))
    }
}

impl Kept for kept::Until {
    fn get(r: &mut Bits) -> io::Result<Self> {
        let mut items = Vec::new();
        loop {
            let byte = r.read(8)?;
            items.push(byte);
            if byte == 0 {
                return Ok(kept::Until(items));
            }
        }
    }

    fn put(&self, w: &mut Put) -> io::Result<()> {
        right(self.0.iter().position(|byte| *byte == 0) == self.0.len().checked_sub(1))?;
        w.write_bytes(&self.0)
    }
}

impl Kept for kept::FilledBy {
    fn get(r: &mut Bits) -> io::Result<Self> {
        let length: u16 = r.read(16)?;
        right(length % 2 == 0)?;
        Ok(kept::FilledBy(length, numbers(r, length as usize / 2)?))
    }

    fn put(&self, w: &mut Put) -> io::Result<()> {
        right(self.0 as usize == 2 * self.1.len())?;
        w.write(16, self.0)?;
        self.1.iter().try_for_each(|number| w.write(16, *number))
    }
}
