//! The header of a tunnel, RFC 8926: its options are counted in words of four bytes.

#[deku(endian = "big")]
struct Geneve {
    #[deku(bits = 2)]
    version: u8,
    #[deku(bits = 6)]
    words: u8,
    #[deku(bits = 1)]
    is_control: bool,
    #[deku(bits = 1, pad_bits_after = "6")]
    is_critical: bool,
    protocol: u16,
    #[deku(bytes = 3, pad_bytes_after = "1")]
    network: u32,
    #[deku(count = "words * 4")]
    options: Vec<u8>,
}
