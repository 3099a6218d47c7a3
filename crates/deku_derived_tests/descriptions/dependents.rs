//! Fields that depend on fields before them.

/// As many items as a field says.
struct Counting {
    count: u8,
    #[deku(count = "count")]
    items: Vec<u8>,
}

/// A count that an update sets.
struct Updating {
    #[deku(update = "self.items.len()")]
    count: u8,
    #[deku(count = "count")]
    items: Vec<u8>,
}

/// Two counts that an update sets.
#[deku(endian = "big")]
struct UpdatingTwo {
    #[deku(update = "self.names.len()")]
    length: u8,
    #[deku(update = "self.values.len()")]
    second: u16,
    #[deku(count = "length")]
    names: Vec<u8>,
    #[deku(count = "second")]
    values: Vec<u16>,
}

/// A field that is there if another one says so.
struct Whether {
    first: u8,
    #[deku(cond = "*first == 0x01")]
    second: Option<u8>,
}
