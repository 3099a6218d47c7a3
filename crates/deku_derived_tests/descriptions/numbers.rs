//! Numbers.

/// An endian for all fields, and another one for a field.
#[deku(endian = "little")]
struct Endians {
    #[deku(endian = "big")]
    first: u16,
    second: u16,
}

/// The low bits first.
#[deku(bit_order = "lsb", endian = "little")]
struct LowFirst {
    #[deku(bits = "4")]
    kind: u8,
    #[deku(bits = "12")]
    mode: u16,
    user: u8,
    group: u8,
    time: u32,
    number: u32,
}

/// The low bits first, the high byte first, and then fields of another order.
#[deku(endian = "big", bit_order = "lsb")]
struct Orders {
    #[deku(bits = 13)]
    offset: u16,
    #[deku(bits = 3)]
    kind: u8,
    #[deku(bit_order = "msb")]
    byte: u8,
    #[deku(bit_order = "msb", bits = 1)]
    first: bool,
    #[deku(bit_order = "msb", bits = 1)]
    second: bool,
    #[deku(bit_order = "msb", bits = 1)]
    third: bool,
    #[deku(bit_order = "msb", bits = 5)]
    rest: u8,
}

/// An order for each field.
#[deku(endian = "little")]
struct OrderOfFields {
    #[deku(bit_order = "lsb", bits = 13)]
    offset: u16,
    #[deku(bit_order = "lsb", bits = 3)]
    kind: u8,
}

/// Widths in bits.
struct Bits {
    #[deku(bits = 2)]
    first: u8,
    #[deku(bits = 6)]
    second: u8,
    third: u8,
}

/// A width in bytes.
#[deku(endian = "little")]
struct Bytes {
    #[deku(bytes = 2)]
    first: u32,
    second: u8,
}
