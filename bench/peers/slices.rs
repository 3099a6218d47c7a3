//! Slices and vectors as streams of the crate `bitstream_io`, of a type of their own for each work: so each of the crate's functions is compiled for
//! the one width that the work calls it with, and for one caller.

use std::io::{self, Cursor, Read, Write};

pub struct Slice<'a, const WORK: u8>(pub &'a [u8]);

impl<const WORK: u8> Read for Slice<'_, WORK> {
    #[inline(always)]
    fn read(&mut self, to: &mut [u8]) -> io::Result<usize> {
        self.0.read(to)
    }

    #[inline(always)]
    fn read_exact(&mut self, to: &mut [u8]) -> io::Result<()> {
        self.0.read_exact(to)
    }
}

pub struct Room<'a, const WORK: u8>(pub &'a mut [u8]);

impl<const WORK: u8> Write for Room<'_, WORK> {
    #[inline(always)]
    fn write(&mut self, from: &[u8]) -> io::Result<usize> {
        self.0.write(from)
    }

    #[inline(always)]
    fn write_all(&mut self, from: &[u8]) -> io::Result<()> {
        self.0.write_all(from)
    }

    fn flush(&mut self) -> io::Result<()> {
        Ok(())
    }
}

pub struct Grown<const WORK: u8>(pub Vec<u8>);

impl<const WORK: u8> Write for Grown<WORK> {
    #[inline(always)]
    fn write(&mut self, from: &[u8]) -> io::Result<usize> {
        self.0.write(from)
    }

    #[inline(always)]
    fn write_all(&mut self, from: &[u8]) -> io::Result<()> {
        self.0.write_all(from)
    }

    fn flush(&mut self) -> io::Result<()> {
        Ok(())
    }
}

/// A cursor, of one type for all works.
pub fn cursor<const WORK: u8>(bytes: &[u8]) -> Cursor<&[u8]> {
    Cursor::new(bytes)
}

pub fn cursor_mut<const WORK: u8>(out: &mut [u8]) -> Cursor<&mut [u8]> {
    Cursor::new(out)
}

/// A slice of the work's own type.
pub fn slice<const WORK: u8>(bytes: &[u8]) -> Slice<'_, WORK> {
    Slice(bytes)
}

pub fn room<const WORK: u8>(out: &mut [u8]) -> Room<'_, WORK> {
    Room(out)
}
