//! A message of a handshake of TLS: its length has three bytes.

#[deku(endian = "big")]
struct Handshake {
    kind: u8,
    #[deku(bytes = 3)]
    length: u32,
    #[deku(count = "length")]
    body: Vec<u8>,
}
