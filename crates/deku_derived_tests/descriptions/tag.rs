//! The front of a tag of a music file, whose size has seven bits in each of four bytes.

#[deku(endian = "big", magic = b"ID3")]
struct Tag {
    version: (u8, u8),
    #[deku(bits = 3, pad_bits_after = "5")]
    flags: u8,
    #[deku(pad_bits_before = "1", bits = 7)]
    first: u8,
    #[deku(pad_bits_before = "1", bits = 7)]
    second: u8,
    #[deku(pad_bits_before = "1", bits = 7)]
    third: u8,
    #[deku(pad_bits_before = "1", bits = 7)]
    fourth: u8,
}
