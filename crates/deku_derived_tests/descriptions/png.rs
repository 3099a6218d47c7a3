//! The signature of a PNG file and the header of its first chunk.

#[deku(endian = "big", magic = b"\x89PNG\r\n\x1a\n")]
struct Start {
    length: u32,
    kind: [u8; 4],
}
