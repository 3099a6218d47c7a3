//! The header of a page of an Ogg stream, RFC 3533, with the table of its segments.

#[deku(endian = "little", magic = b"OggS")]
struct Page {
    #[deku(assert_eq = "0")]
    version: u8,
    flags: u8,
    position: i64,
    stream: u32,
    sequence: u32,
    checksum: u32,
    segments: u8,
    #[deku(count = "segments")]
    table: Vec<u8>,
}
