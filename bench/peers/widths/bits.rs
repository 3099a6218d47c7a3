//! The same by the crate `bitstream_io`: over cursors, as all that is read and written by it so, and over slices, by a reader or a writer of their own.

use crate::records::Wide;
use crate::slices::{Grown, Room, Slice};
use bitstream_io::{BigEndian as Msb, BitRead, BitReader, BitWrite, BitWriter, LittleEndian as Lsb};
use std::hint::black_box;
use std::io::{self, Cursor, Seek, SeekFrom};

fn all<T>(out: &mut [T], mut one: impl FnMut() -> io::Result<T>) -> bool {
    for to in out {
        match one() {
            Ok(read) => *to = read,
            Err(_) => return false,
        }
    }
    true
}

// Eight in a row.
fn eight<T: Copy + Default>(mut one: impl FnMut() -> io::Result<T>) -> io::Result<[T; 8]> {
    let mut row = [T::default(); 8];
    for to in &mut row {
        *to = one()?;
    }
    Ok(row)
}

macro_rules! plain {
    ($read:ident, $write:ident, $value:ty, $number:ty, $bits:literal, $order:ident, $get:ident, $put:ident, $source:expr, $sink:expr) => {
        pub fn $read(bytes: &[u8], out: &mut [$value]) -> bool {
            let mut r = BitReader::endian($source(bytes), $order);
            all(out, || Ok(r.$get::<$number>($bits)?.into()))
        }

        pub fn $write(from: &[$value], out: &mut [u8]) -> bool {
            let mut w = BitWriter::endian($sink(out), $order);
            from.iter().all(|value| w.$put($bits, <$number>::from(*value)).is_ok()) && w.byte_align().is_ok()
        }
    };
}

plain!(i24_read, i24_write, i32, i32, 24, Msb, read_signed, write_signed, Cursor::new, Cursor::new);
plain!(i24_best_read, i24_best_write, i32, i32, 24, Msb, read_signed, write_signed, Slice::<6>, Room::<6>);
plain!(i16_little_read, i16_little_write, i16, i16, 16, Lsb, read_signed, write_signed, Cursor::new, Cursor::new);
plain!(i16_little_best_read, i16_little_best_write, i16, i16, 16, Lsb, read_signed, write_signed, Slice::<7>, Room::<7>);
plain!(u61_read, u61_write, u64, u64, 61, Msb, read, write, Cursor::new, Cursor::new);
plain!(u61_best_read, u61_best_write, u64, u64, 61, Msb, read, write, Slice::<8>, Room::<8>);
plain!(u65_read, u65_write, Wide, u128, 65, Msb, read, write, Cursor::new, Cursor::new);
plain!(u65_best_read, u65_best_write, Wide, u128, 65, Msb, read, write, Slice::<9>, Room::<9>);
plain!(u127_read, u127_write, Wide, u128, 127, Msb, read, write, Cursor::new, Cursor::new);
plain!(u127_best_read, u127_best_write, Wide, u128, 127, Msb, read, write, Slice::<10>, Room::<10>);

macro_rules! rows {
    ($flags_read:ident, $flags_write:ident, $ones_read:ident, $ones_write:ident, $skip_bytes:ident, $skip_few:ident, $source:expr, $sink:expr, $few:expr) => {
        pub fn $flags_read(bytes: &[u8], out: &mut [[bool; 8]]) -> bool {
            let mut r = BitReader::endian($source(bytes), Msb);
            all(out, || eight(|| r.read_bit()))
        }

        pub fn $flags_write(from: &[[bool; 8]], out: &mut [u8]) -> bool {
            let mut w = BitWriter::endian($sink(out), Msb);
            from.iter().flatten().all(|flag| w.write_bit(*flag).is_ok())
        }

        pub fn $ones_read(bytes: &[u8], out: &mut [[u8; 8]]) -> bool {
            let mut r = BitReader::endian($source(bytes), Msb);
            all(out, || eight(|| r.read(1)))
        }

        pub fn $ones_write(from: &[[u8; 8]], out: &mut [u8]) -> bool {
            let mut w = BitWriter::endian($sink(out), Msb);
            from.iter().flatten().all(|one| w.write(1, *one).is_ok())
        }

        pub fn $skip_bytes(bytes: &[u8], out: &mut [u8]) -> bool {
            let mut r = BitReader::endian($source(bytes), Msb);
            all(out, || {
                let byte = r.read(8)?;
                r.skip(24)?;
                Ok(byte)
            })
        }

        pub fn $skip_few(bytes: &[u8], out: &mut [u8]) -> bool {
            let mut r = BitReader::endian($few(bytes), Msb);
            all(out, || {
                let few = r.read(5)?;
                r.skip(3)?;
                Ok(few)
            })
        }
    };
}

rows!(flags_read, flags_write, ones_read, ones_write, skip_bytes, skip_few, Cursor::new, Cursor::new, Cursor::new);
rows!(flags_best_read, flags_best_write, ones_best_read, ones_best_write, skip_bytes_best, skip_few_best, Slice::<11>, Room::<11>, Slice::<12>);

/// A seek of the cursor, and a reader from there.
pub fn seeks(bytes: &[u8], out: &mut [u16]) -> bool {
    let mut cursor = Cursor::new(bytes);
    let mut place = 0;
    all(out, || {
        cursor.seek(SeekFrom::Start(black_box(place)))?;
        place += 4;
        BitReader::endian(&mut cursor, Msb).read(16)
    })
}

/// A reader of the slice from each place.
pub fn seeks_best(bytes: &[u8], out: &mut [u16]) -> bool {
    let mut place = 0;
    all(out, || {
        let rest = bytes.get(black_box(place)..).ok_or(io::ErrorKind::UnexpectedEof)?;
        place += 4;
        BitReader::endian(Slice::<13>(rest), Msb).read(16)
    })
}

pub fn u16_grow(from: &[u16], out: &mut [u8]) -> bool {
    let mut w = BitWriter::endian(Vec::new(), Msb);
    if !from.iter().all(|number| w.write(16, *number).is_ok()) {
        return false;
    }
    out.copy_from_slice(black_box(&w.into_writer()));
    true
}

pub fn u16_best_grow(from: &[u16], out: &mut [u8]) -> bool {
    let mut w = BitWriter::endian(Grown::<14>(Vec::new()), Msb);
    if !from.iter().all(|number| w.write(16, *number).is_ok()) {
        return false;
    }
    out.copy_from_slice(black_box(&w.into_writer().0));
    true
}
