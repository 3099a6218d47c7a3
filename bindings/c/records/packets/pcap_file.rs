//! The headers of a capture file as libpcap writes them: one at the start of the file, and one
//! before each packet. A file of the other endian fails the check of the magic number.

/// The header of a file, the low byte of each number first.
#[deku(endian = "little")]
struct PcapHeaderLittle {
    /// 0xA1B2C3D4 for times in microseconds, 0xA1B23C4D for nanoseconds.
    #[deku(assert = "*magic == 0xA1B2C3D4 || *magic == 0xA1B23C4D")]
    magic: u32,
    /// The version of the format: 2.
    major: u16,
    /// The version within it: 4.
    minor: u16,
    /// The time zone of the times, in seconds: 0.
    zone: i32,
    /// How exact the times are: 0.
    figures: u32,
    /// The number of bytes of a packet that are kept, at most.
    longest: u32,
    /// What the packets begin with, in the low 16 bits: 1 Ethernet, 101 IP.
    network: u32,
}

/// The header of a packet, the low byte of each number first.
#[deku(endian = "little")]
struct PcapPacketLittle {
    /// When it was captured, in seconds since the beginning of 1970.
    seconds: u32,
    /// The rest of that time, in micro- or nanoseconds.
    fraction: u32,
    /// The number of bytes of the packet that follow.
    kept: u32,
    /// The number of bytes that the packet had.
    whole: u32,
}

/// The header of a file, the high byte of each number first.
#[deku(endian = "big")]
struct PcapHeaderBig {
    /// 0xA1B2C3D4 for times in microseconds, 0xA1B23C4D for nanoseconds.
    #[deku(assert = "*magic == 0xA1B2C3D4 || *magic == 0xA1B23C4D")]
    magic: u32,
    /// The version of the format: 2.
    major: u16,
    /// The version within it: 4.
    minor: u16,
    /// The time zone of the times, in seconds: 0.
    zone: i32,
    /// How exact the times are: 0.
    figures: u32,
    /// The number of bytes of a packet that are kept, at most.
    longest: u32,
    /// What the packets begin with, in the low 16 bits: 1 Ethernet, 101 IP.
    network: u32,
}

/// The header of a packet, the high byte of each number first.
#[deku(endian = "big")]
struct PcapPacketBig {
    /// When it was captured, in seconds since the beginning of 1970.
    seconds: u32,
    /// The rest of that time, in micro- or nanoseconds.
    fraction: u32,
    /// The number of bytes of the packet that follow.
    kept: u32,
    /// The number of bytes that the packet had.
    whole: u32,
}
