//! Checks and padding.

/// Fixed bytes in front.
#[deku(magic = b"deku")]
struct Named {
    data: u8,
}

/// Fixed bytes in front of a field.
struct NamedField {
    #[deku(magic = b"deku")]
    data: u8,
}

/// A number that is checked.
struct AtLeast {
    #[deku(assert = "*data >= 8")]
    data: u8,
}

/// A number that has one value.
struct Only {
    #[deku(assert_eq = "0x01")]
    data: u8,
}

/// Bytes before a field.
struct BytesBefore {
    first: u8,
    #[deku(pad_bytes_before = "2")]
    second: u8,
}

/// Bits before a field.
struct BitsBefore {
    #[deku(bits = 2)]
    first: u8,
    #[deku(pad_bits_before = "2", bits = 4)]
    second: u8,
}

/// Bytes after a field.
struct BytesAfter {
    #[deku(pad_bytes_after = "2")]
    first: u8,
    second: u8,
}

/// Bits after a field.
struct BitsAfter {
    #[deku(bits = 2, pad_bits_after = "2")]
    first: u8,
    #[deku(bits = 4)]
    second: u8,
}
