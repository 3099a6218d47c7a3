//! The header of a record of TLS, RFC 8446.
#[deku(endian = "big")]
struct TlsRecord {
    /// What follows: 20 a change of cipher, 21 an alert, 22 a handshake, 23 data.
    content: u8,
    /// The version of the protocol: 0x0301 to 0x0304.
    version: u16,
    /// The number of bytes that follow.
    length: u16,
}
