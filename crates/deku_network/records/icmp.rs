//! Messages of ICMP, RFC 792.
//!
//! ```text
//! kind          8 bits   0 the answer to an echo, 3 unreachable, 8 an echo, 11 time exceeded
//! code          8 bits
//! checksum     16 bits
//! identifier   16 bits   of an echo and its answer; then data
//! sequence     16 bits
//! unused       16 bits   of unreachable; then the beginning of the packet
//! next_mtu     16 bits   (RFC 1191)
//! unused       32 bits   of time exceeded; then the beginning of the packet
//! ```

/// The beginning of a message, by its kind.
#[deku(id_type = "u8", endian = "big")]
enum Icmp {
    /// The answer to an echo.
    #[deku(id = 0)]
    EchoReply {
        code: u8,
        checksum: u16,
        identifier: u16,
        sequence: u16,
    },
    /// The packet did not reach its destination.
    #[deku(id = 3)]
    Unreachable {
        code: u8,
        checksum: u16,
        unused: u16,
        next_mtu: u16,
    },
    /// An echo is asked for.
    #[deku(id = 8)]
    Echo {
        code: u8,
        checksum: u16,
        identifier: u16,
        sequence: u16,
    },
    /// The packet was too long on its way.
    #[deku(id = 11)]
    TimeExceeded {
        code: u8,
        checksum: u16,
        unused: u32,
    },
    /// Another message: its kind, its code and its checksum.
    #[deku(id_pat = "_")]
    Other(u8, u8, u16),
}
