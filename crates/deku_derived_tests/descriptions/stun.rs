//! The header of a message of STUN, RFC 8489.

#[deku(endian = "big")]
struct Stun {
    #[deku(pad_bits_before = "2", bits = 14)]
    kind: u16,
    #[deku(assert = "length % 4 == 0")]
    length: u16,
    #[deku(magic = b"\x21\x12\xA4\x42")]
    transaction: [u8; 12],
}
