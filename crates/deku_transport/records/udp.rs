//! The header of a UDP datagram, RFC 768.
//!
//! ```text
//! source       16 bits
//! destination  16 bits
//! length       16 bits
//! checksum     16 bits
//! ```

/// The header of a datagram.
#[deku(endian = "big")]
struct Udp {
    /// The port of the sender, or 0.
    source: u16,
    /// The port of the receiver.
    destination: u16,
    /// The bytes of the header and what follows it.
    length: u16,
    /// The checksum, or 0 if there is none.
    checksum: u16,
}
