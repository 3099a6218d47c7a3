//! The header of a record of TLS, RFC 8446.
//!
//! ```text
//! content   8 bits   20 a change of cipher, 21 an alert, 22 a handshake, 23 data
//! version  16 bits   0301 to 0304
//! length   16 bits   how many bytes follow
//! ```

/// The header of a record.
#[deku(endian = "big")]
struct Tls {
    /// What follows: 20 a change of cipher, 21 an alert, 22 a handshake, 23 data.
    content: u8,
    /// The version of the protocol.
    version: u16,
    /// How many bytes follow.
    length: u16,
}
