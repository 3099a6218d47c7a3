//! A packet of RADIUS, RFC 2865: its length counts the header of 20 bytes too.

const FRONT: u16 = 20;

#[deku(endian = "big")]
struct Radius {
    code: u8,
    identifier: u8,
    length: u16,
    authenticator: [u8; 16],
    #[deku(count = "*length - FRONT")]
    attributes: Vec<u8>,
}
