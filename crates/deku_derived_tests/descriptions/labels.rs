//! Lists of structs that end with one of them.

/// Bytes after their number.
struct Label {
    length: u8,
    #[deku(count = "length")]
    bytes: Vec<u8>,
}

/// Labels up to an empty one, and a number.
#[deku(endian = "big")]
struct Name {
    #[deku(until = "|label: &Label| label.length == 0")]
    labels: Vec<Label>,
    kind: u16,
}

/// Two numbers, after a byte that is always the same.
#[deku(magic = b"e", endian = "big")]
struct Entry {
    #[deku(bits = 1)]
    more: bool,
    #[deku(bits = 15)]
    key: u16,
}

/// Entries up to one that says so, or that has the key 7.
struct Entries {
    #[deku(until = "|entry: &Entry| !entry.more || entry.key == 7")]
    entries: Vec<Entry>,
}
