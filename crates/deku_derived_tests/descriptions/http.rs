//! The header of a frame of HTTP/2, RFC 9113.

#[deku(endian = "big")]
struct Frame {
    #[deku(bytes = 3)]
    length: u32,
    kind: u8,
    flags: u8,
    #[deku(pad_bits_before = "1", bits = 31)]
    stream: u32,
}
