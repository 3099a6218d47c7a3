//! Lists of whole-number fields, read from bytes and written as bytes, bit by bit.
//!
//! ```
//! use dishkaru::{Field, Kind, Value, read, write};
//!
//! let fields = [
//!     Field::new(Kind::U8).big().bits(4),
//!     Field::new(Kind::U8).big().bits(4),
//!     Field::new(Kind::U16).big(),
//! ];
//! let bytes = write(&fields, &[6u8.into(), 9u8.into(), 49406u16.into()])?;
//! assert_eq!(bytes, [0x69, 0xC0, 0xFE]);
//!
//! let (values, bits) = read(&fields, &bytes)?;
//! assert_eq!(values, [Value::from(6u8), Value::from(9u8), Value::from(49406u16)]);
//! assert_eq!(bits, 24);
//! # Ok::<(), dishkaru::Error>(())
//! ```
//!
//! The functions that it calls are proved; this crate is a thin layer over them, and tested. It
//! links `libdishkaru.a`, which `make` in `bindings/c` builds.

use std::fmt;

/// The type of a whole number. `Usize` and `Isize` have 64 bits.
#[derive(Debug, Clone, Copy, PartialEq, Eq)]
#[repr(u8)]
pub enum Kind {
    U8 = 0,
    U16 = 1,
    U32 = 2,
    U64 = 3,
    U128 = 4,
    Usize = 5,
    I8 = 6,
    I16 = 7,
    I32 = 8,
    I64 = 9,
    I128 = 10,
    Isize = 11,
}

/// A field: a kind of number, and how it is laid out.
#[derive(Debug, Clone, Copy, PartialEq, Eq)]
#[repr(C)]
pub struct Field {
    kind: u8,
    endian: u8,
    order: u8,
    unit: u8,
    size: u32,
}

impl Field {
    /// A field of all bits of its kind, with its low byte first, that takes the high bits of a byte
    /// first.
    #[inline]
    pub const fn new(kind: Kind) -> Field {
        Field {
            kind: kind as u8,
            endian: 0,
            order: 0,
            unit: 0,
            size: 0,
        }
    }

    /// The same with its high byte first.
    #[inline]
    pub const fn big(self) -> Field {
        Field { endian: 1, ..self }
    }

    /// The same, taking the low bits of a byte first.
    #[inline]
    pub const fn lsb(self) -> Field {
        Field { order: 1, ..self }
    }

    /// The same with this many bits.
    #[inline]
    pub const fn bits(self, size: u32) -> Field {
        Field {
            unit: 1,
            size,
            ..self
        }
    }

    /// The same with this many bytes. A `U8` always has one.
    #[inline]
    pub const fn bytes(self, size: u32) -> Field {
        Field {
            unit: 2,
            size,
            ..self
        }
    }
}

/// The value of a field: 128 bits, which a signed kind reads in two's complement.
#[derive(Debug, Clone, Copy, PartialEq, Eq, Default)]
#[repr(C)]
pub struct Value {
    low: u64,
    high: u64,
}

impl Value {
    /// The value of an unsigned kind.
    #[inline]
    pub const fn unsigned(self) -> u128 {
        (self.high as u128) << 64 | self.low as u128
    }

    /// The value of a signed kind.
    #[inline]
    pub const fn signed(self) -> i128 {
        self.unsigned() as i128
    }
}

macro_rules! from {
    ($wide:ty: $($narrow:ty),*) => {
        $(impl From<$narrow> for Value {
            #[inline]
            fn from(value: $narrow) -> Value {
                let bits = value as $wide as u128;
                Value { low: bits as u64, high: (bits >> 64) as u64 }
            }
        })*
    };
}

from!(u128: u8, u16, u32, u64, u128, usize);
from!(i128: i8, i16, i32, i64, i128, isize);

/// Why a call failed.
#[derive(Debug, Clone, Copy, PartialEq, Eq)]
pub enum Error {
    /// There are not as many values as fields.
    Miscounted,
    /// A read met the end of the bytes.
    Incomplete,
    /// A read: the size of a field is beyond its kind.
    Parse,
    /// A value does not fit its field, or the layout of a field is rejected.
    InvalidParam,
    /// A write met the end of the bytes.
    Io,
    /// A status that these functions do not return.
    Unknown(u32),
}

impl fmt::Display for Error {
    fn fmt(&self, f: &mut fmt::Formatter<'_>) -> fmt::Result {
        match self {
            Error::Miscounted => f.write_str("there are not as many values as fields"),
            Error::Incomplete => f.write_str("not enough data"),
            Error::Parse => f.write_str("the size of a field is beyond its kind"),
            Error::InvalidParam => {
                f.write_str("a value does not fit its field, or the layout of a field is rejected")
            }
            Error::Io => f.write_str("not enough room"),
            Error::Unknown(status) => write!(f, "unknown status {status}"),
        }
    }
}

impl std::error::Error for Error {}

// What a status means.
#[inline]
fn checked(status: u32) -> Result<(), Error> {
    match status {
        0 => Ok(()),
        2 => Err(Error::Miscounted),
        3 => Err(Error::Incomplete),
        4 => Err(Error::Parse),
        5 => Err(Error::InvalidParam),
        8 => Err(Error::Io),
        other => Err(Error::Unknown(other)),
    }
}

// A slice is passed as a pointer, which is not null even if the slice is empty, and a length.
#[link(name = "dishkaru", kind = "static")]
extern "C" {
    fn dishkaru_bits(fields: *const Field, field_count: usize, bits: *mut u64) -> u32;
    fn dishkaru_read(
        fields: *const Field,
        field_count: usize,
        bytes: *const u8,
        byte_count: usize,
        values: *mut Value,
        value_count: usize,
        bits: *mut u64,
    ) -> u32;
    fn dishkaru_write(
        fields: *const Field,
        field_count: usize,
        values: *const Value,
        value_count: usize,
        bytes: *mut u8,
        byte_count: usize,
        written: *mut u64,
    ) -> u32;
}

/// How many bits the fields take.
///
/// Fails with `InvalidParam` if a layout is rejected: a size beyond the kind, or a signed field,
/// big and lsb, of more than eight bits that are not whole bytes.
#[inline]
pub fn bits(fields: &[Field]) -> Result<u64, Error> {
    let mut bits = 0;
    // SAFETY: the slice is valid for its length, and `bits` is a place of its own.
    checked(unsafe { dishkaru_bits(fields.as_ptr(), fields.len(), &mut bits) })?;
    Ok(bits)
}

/// Reads one value for each field into `values`, from the first bit on, and returns how many bits
/// they took. What follows the last field is ignored. It takes no memory.
///
/// Fails with `Miscounted` if there are not as many values as fields; then nothing changes. Fails
/// as the first field that fails, with `Parse` if its size is beyond its kind, with `InvalidParam`
/// if its layout is rejected otherwise, and with `Incomplete` if the bytes end before it does; then
/// the values are unspecified.
#[inline]
pub fn read_into(fields: &[Field], bytes: &[u8], values: &mut [Value]) -> Result<u64, Error> {
    let mut bits = 0;
    // SAFETY: the slices are valid for their lengths, `values` overlaps none of the others, and
    // `bits` is a place of its own.
    let status = unsafe {
        dishkaru_read(
            fields.as_ptr(),
            fields.len(),
            bytes.as_ptr(),
            bytes.len(),
            values.as_mut_ptr(),
            values.len(),
            &mut bits,
        )
    };
    checked(status)?;
    Ok(bits)
}

/// Writes one value for each field to the start of `bytes`, fills the last byte with zero bits, and
/// returns how many bytes these are. The bytes after them stay as they were. It takes no memory.
///
/// Fails with `Miscounted` if there are not as many values as fields; then nothing changes. Fails
/// as the first value that fails, with `InvalidParam` if it does not fit its field or the layout is
/// rejected, or with `Io` if there are too few bytes; then some bytes may have been written.
#[inline]
pub fn write_into(fields: &[Field], values: &[Value], bytes: &mut [u8]) -> Result<usize, Error> {
    let mut written = 0;
    // SAFETY: the slices are valid for their lengths, `bytes` overlaps none of the others, and
    // `written` is a place of its own.
    let status = unsafe {
        dishkaru_write(
            fields.as_ptr(),
            fields.len(),
            values.as_ptr(),
            values.len(),
            bytes.as_mut_ptr(),
            bytes.len(),
            &mut written,
        )
    };
    checked(status)?;
    Ok(written as usize)
}

/// The value of each field, and how many bits they took, as `read_into`.
pub fn read(fields: &[Field], bytes: &[u8]) -> Result<(Vec<Value>, u64), Error> {
    let mut values = vec![Value::default(); fields.len()];
    let bits = read_into(fields, bytes, &mut values)?;
    Ok((values, bits))
}

/// The bytes of the values, the last one filled with zero bits, as `write_into`.
pub fn write(fields: &[Field], values: &[Value]) -> Result<Vec<u8>, Error> {
    let mut bytes = vec![0; bits(fields)?.div_ceil(8) as usize];
    let written = write_into(fields, values, &mut bytes)?;
    bytes.truncate(written);
    Ok(bytes)
}

#[cfg(test)]
mod tests;
