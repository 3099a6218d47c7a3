//! Messages of ICMPv6, RFC 4443.
//!
//! ```text
//! kind          8 bits   1 unreachable, 3 time exceeded, 128 an echo, 129 its answer
//! code          8 bits
//! checksum     16 bits
//! identifier   16 bits   of an echo and its answer; then data
//! sequence     16 bits
//! unused       32 bits   of the others; then the beginning of the packet
//! ```

/// The beginning of a message, by its kind.
#[deku(id_type = "u8", endian = "big")]
enum Icmpv6 {
    /// The packet did not reach its destination.
    #[deku(id = 1)]
    Unreachable {
        code: u8,
        checksum: u16,
        unused: u32,
    },
    /// The packet was too long on its way.
    #[deku(id = 3)]
    TimeExceeded {
        code: u8,
        checksum: u16,
        unused: u32,
    },
    /// An echo is asked for.
    #[deku(id = 128)]
    Echo {
        code: u8,
        checksum: u16,
        identifier: u16,
        sequence: u16,
    },
    /// The answer to an echo.
    #[deku(id = 129)]
    EchoReply {
        code: u8,
        checksum: u16,
        identifier: u16,
        sequence: u16,
    },
    /// Another message: its kind, its code and its checksum.
    #[deku(id_pat = "_")]
    Other(u8, u8, u16),
}
