//! The headers of a capture file, as libpcap writes them: one at the start of the file, and one
//! before each packet. (draft-ietf-opsawg-pcap, "PCAP Capture File Format".)
//!
//! ```text
//! magic        32 bits   A1B2C3D4 for microseconds, A1B23C4D for nanoseconds
//! major        16 bits   2
//! minor        16 bits   4
//! zone         32 bits   of the times, in seconds: always 0
//! figures      32 bits   of the times: always 0
//! longest      32 bits   no more bytes of a packet are kept
//! network      32 bits   what the packets begin with: 1 for Ethernet, 101 for IP
//!
//! seconds      32 bits   since the beginning of 1970
//! fraction     32 bits   micro- or nanoseconds
//! kept         32 bits   how many bytes of the packet follow
//! whole        32 bits   how many bytes the packet had
//! ```
//!
//! The machine that captured gives the order of the bytes in all numbers, and the magic number
//! shows which it was.

/// The magic number, with which a file starts.
#[deku(id_type = "u32", endian = "big")]
enum Start {
    /// High bytes first, times in microseconds.
    #[deku(id = 0xA1B2C3D4)]
    Big,
    /// High bytes first, times in nanoseconds.
    #[deku(id = 0xA1B23C4D)]
    BigNano,
    /// Low bytes first, times in microseconds.
    #[deku(id = 0xD4C3B2A1)]
    Little,
    /// Low bytes first, times in nanoseconds.
    #[deku(id = 0x4D3CB2A1)]
    LittleNano,
}

/// The header of a file after its magic number, high bytes first.
#[deku(endian = "big")]
struct BigFields {
    /// The version of the format, which is 2.
    major: u16,
    /// The version within it, which is 4.
    minor: u16,
    /// The time zone of the times, in seconds: always 0.
    zone: i32,
    /// How exact the times are: always 0.
    figures: u32,
    /// No more bytes of a packet are kept.
    longest: u32,
    /// What the packets begin with, in the low 16 bits: 1 for Ethernet, 101 for IP.
    network: u32,
}

/// The header of a file after its magic number, low bytes first.
#[deku(endian = "little")]
struct LittleFields {
    /// The version of the format, which is 2.
    major: u16,
    /// The version within it, which is 4.
    minor: u16,
    /// The time zone of the times, in seconds: always 0.
    zone: i32,
    /// How exact the times are: always 0.
    figures: u32,
    /// No more bytes of a packet are kept.
    longest: u32,
    /// What the packets begin with, in the low 16 bits: 1 for Ethernet, 101 for IP.
    network: u32,
}

/// The header of a packet, high bytes first.
#[deku(endian = "big")]
struct BigPacket {
    /// When it was captured, in seconds since the beginning of 1970.
    seconds: u32,
    /// The rest of that time, in micro- or nanoseconds.
    fraction: u32,
    /// How many bytes of the packet follow.
    kept: u32,
    /// How many bytes the packet had.
    whole: u32,
}

/// The header of a packet, low bytes first.
#[deku(endian = "little")]
struct LittlePacket {
    /// When it was captured, in seconds since the beginning of 1970.
    seconds: u32,
    /// The rest of that time, in micro- or nanoseconds.
    fraction: u32,
    /// How many bytes of the packet follow.
    kept: u32,
    /// How many bytes the packet had.
    whole: u32,
}
