//! Headers by stream, by hand: a reader and a writer in safe Rust that keep no more than a place and how many bits are pending, and that say
//! where the bytes end.

use super::hand::{ipv4, ipv4_bytes, udp, udp_bytes};
use crate::records::*;
use std::hint::black_box;

enum Error {
    /// The bytes end before this many more.
    Incomplete(usize),
    /// It does not begin at a byte.
    Pending(u8),
    /// The fields are not those of a header.
    Fields,
}

struct Reader<'b> {
    bytes: &'b [u8],
    place: usize,
    pending: u8,
}

impl<'b> Reader<'b> {
    #[inline(always)]
    fn take<const N: usize>(&mut self) -> Result<&'b [u8; N], Error> {
        let rest = self.bytes.get(self.place..).and_then(|rest| rest.first_chunk());
        match rest {
            Some(bytes) if self.pending == 0 => {
                self.place += N;
                Ok(bytes)
            }
            _ => Err(self.refused(N)),
        }
    }

    #[cold]
    fn refused(&self, wanted: usize) -> Error {
        match self.pending {
            0 => Error::Incomplete(wanted - (self.bytes.len() - self.place)),
            pending => Error::Pending(pending),
        }
    }

    #[inline(always)]
    fn udp(&mut self) -> Result<UdpFields, Error> {
        Ok(udp(self.take()?))
    }

    #[inline(always)]
    fn ipv4(&mut self) -> Result<(Ipv4Fields, Vec<u8>), Error> {
        let front = ipv4(self.take()?).ok_or(Error::Fields)?;
        let words = front.words.checked_sub(5).ok_or(Error::Fields)?;
        let mut options = Vec::new();
        for _ in 0..words {
            options.extend_from_slice(self.take::<4>()?);
        }
        Ok((front, options))
    }
}

struct Writer<'b> {
    bytes: &'b mut [u8],
    place: usize,
    pending: u8,
}

impl Writer<'_> {
    #[inline(always)]
    fn put<const N: usize>(&mut self, bytes: [u8; N]) -> Result<(), Error> {
        let room = self.bytes.get_mut(self.place..).and_then(|room| room.first_chunk_mut());
        match room {
            Some(room) if self.pending == 0 => {
                *room = bytes;
                self.place += N;
                Ok(())
            }
            _ => Err(self.refused(N)),
        }
    }

    #[cold]
    fn refused(&self, wanted: usize) -> Error {
        match self.pending {
            0 => Error::Incomplete(wanted - (self.bytes.len() - self.place)),
            pending => Error::Pending(pending),
        }
    }

    #[inline(always)]
    fn udp(&mut self, udp: &UdpFields) -> Result<(), Error> {
        self.put(udp_bytes(udp))
    }

    #[inline(always)]
    fn ipv4(&mut self, front: &Ipv4Fields, options: &[u8]) -> Result<(), Error> {
        if options.len() != 4 * (front.words as usize).checked_sub(5).ok_or(Error::Fields)? {
            return Err(Error::Fields);
        }
        self.put(ipv4_bytes(front).ok_or(Error::Fields)?)?;
        for word in options.chunks_exact(4) {
            self.put([word[0], word[1], word[2], word[3]])?;
        }
        Ok(())
    }
}

fn reader(bytes: &[u8]) -> Reader<'_> {
    Reader { bytes, place: 0, pending: black_box(0) }
}

fn writer(bytes: &mut [u8]) -> Writer<'_> {
    Writer { bytes, place: 0, pending: black_box(0) }
}

pub fn udp_read(bytes: &[u8], out: &mut [UdpFields]) -> bool {
    let mut reader = reader(bytes);
    for to in out {
        let Ok(udp) = reader.udp() else { return false };
        *to = udp;
    }
    true
}

pub fn udp_write(from: &[UdpFields], out: &mut [u8]) -> bool {
    let mut writer = writer(out);
    from.iter().all(|udp| writer.udp(udp).is_ok())
}

pub fn ipv4_read(bytes: &[u8], out: &mut [Ipv4Fields]) -> bool {
    let mut reader = reader(bytes);
    for to in out {
        let Ok((front, options)) = reader.ipv4() else { return false };
        black_box(&options);
        *to = front;
    }
    true
}

pub fn ipv4_write(from: &[Ipv4Fields], out: &mut [u8]) -> bool {
    let mut writer = writer(out);
    from.iter().all(|front| writer.ipv4(front, black_box(&[])).is_ok())
}
