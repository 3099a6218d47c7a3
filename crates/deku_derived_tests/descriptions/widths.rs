//! Numbers whose width a field says.

/// A number of so many bits.
#[deku(endian = "big")]
struct Measured {
    #[deku(bits = 4)]
    kind: u8,
    #[deku(bits = 4)]
    width: u8,
    #[deku(bits = "*width")]
    value: u16,
    last: u8,
}

/// A number of so many bytes, its low byte first, and a list.
struct Sums {
    bytes: u8,
    #[deku(bytes = "*bytes as usize", endian = "little", assert = "*sum > 0")]
    sum: u64,
    count: u8,
    #[deku(count = "count")]
    items: Vec<u8>,
}
