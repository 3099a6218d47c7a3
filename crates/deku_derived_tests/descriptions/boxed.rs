//! A number that is elsewhere in memory, numbers of many widths, and a record that holds memory in another.

#[deku(endian = "big")]
struct Body {
    kind: u8,
    length: u8,
    #[deku(count = "length")]
    bytes: Vec<u8>,
}

#[deku(endian = "big", magic = b"DK")]
struct Outer {
    id: Box<u16>,
    wide: u128,
    #[deku(bits = 100)]
    key: u128,
    #[deku(bits = 28)]
    rest: i32,
    body: Body,
    check: u32,
}
