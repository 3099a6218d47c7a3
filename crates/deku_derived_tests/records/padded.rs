//! Padding on each side of a field, and an id in an endian of its own.

/// A byte in the middle of three, and two numbers in one.
struct Padded {
    #[deku(pad_bytes_before = "1", pad_bytes_after = "1")]
    byte: u8,
    #[deku(bits = 2, pad_bits_after = "2")]
    first: u8,
    #[deku(bits = 4)]
    second: u8,
}

/// Ids of one endian, and fields of another.
#[deku(id_type = "u16", id_endian = "big", endian = "little")]
enum EndianOfId {
    #[deku(id = "0x01")]
    Little(u16),
    #[deku(id = "0x02")]
    Big {
        #[deku(endian = "big")]
        x: u16,
    },
}
