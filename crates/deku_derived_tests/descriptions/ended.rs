//! Lists that end with an item.

/// The item that ends a text.
const END: u8 = 0;

/// Numbers up to the first of at least 0x8000.
#[deku(endian = "little")]
struct Numbers {
    #[deku(until = "|item: &u16| *item >= 0x8000")]
    items: Vec<u16>,
}

/// Half bytes up to a zero, between a count and what it counts.
struct Halves {
    count: u8,
    #[deku(bits = 4, until = "|half: &u8| *half == 0")]
    halves: Vec<u8>,
    #[deku(bits = 4)]
    mode: u8,
    #[deku(count = "count")]
    items: Vec<u8>,
}

/// Lists one after the other.
struct Lists {
    #[deku(until = "|more: &bool| !*more")]
    flags: Vec<bool>,
    count: u8,
    #[deku(count = "count")]
    counted: Vec<u8>,
    #[deku(until = "|item: &u8| *item as usize + 1 == 256")]
    bytes: Vec<u8>,
}

/// A text of C, and all after it.
struct TextAndRest {
    #[deku(until = "|byte: &u8| *byte == END")]
    text: Vec<u8>,
    #[deku(read_all)]
    rest: Vec<u8>,
}
