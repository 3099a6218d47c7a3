//! The header of a UDP datagram, RFC 768.
#[deku(endian = "big")]
struct Udp {
    /// The port of the sender, or 0.
    source: u16,
    /// The port of the receiver.
    destination: u16,
    /// The number of bytes of the header and its payload.
    length: u16,
    /// The checksum, or 0 if there is none.
    checksum: u16,
}
