//! A frame of a bus: a byte that is always the same, checks, a record in another one, and a tuple.
#[deku(endian = "big")]
struct Range {
    low: u8,
    #[deku(assert = "*low <= *high")]
    high: u8,
}

#[deku(magic = b"\xA5", endian = "big")]
struct Frame {
    #[deku(bits = 4, assert = "*version == 1 || *version == 2")]
    version: u8,
    #[deku(bits = 4)]
    kind: u8,
    range: Range,
    pair: (u8, u16),
    #[deku(pad_bits_before = "6", bits = 2)]
    end: u8,
}
