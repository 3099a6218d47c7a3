//! Lists whose size is not kept, or is in bytes, or that end with an item or with the input.

/// Items after their number, which the record does not keep.
struct Alone {
    #[deku(temp, temp_value = "items.len() as u8")]
    num_items: u8,
    #[deku(count = "num_items", endian = "big")]
    items: Vec<u16>,
}

/// Two bytes.
struct Two {
    first: u8,
    second: u8,
}

/// Items of as many bytes as a field says.
struct Sizing {
    bytes: u8,
    #[deku(bytes_read = "bytes")]
    items: Vec<Two>,
}

/// Items up to the end.
struct ToEnd {
    #[deku(read_all)]
    items: Vec<Two>,
}

/// The item that ends a text.
const END: u8 = 0;

/// A text of C between two numbers.
#[deku(endian = "big")]
struct Text {
    first: u16,
    /// The bytes, with the zero that ends them.
    #[deku(until = "|byte: &u8| *byte == END")]
    bytes: Vec<u8>,
    last: u16,
}
