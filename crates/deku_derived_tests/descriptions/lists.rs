//! Lists of which other fields say the size, and a list up to the end of the input.

/// An entry of a table.
#[deku(endian = "big")]
pub struct Entry {
    pub kind: u8,
    pub value: u16,
}

/// A table, with its size in bytes.
#[deku(endian = "big")]
pub struct Table {
    #[deku(bits = 4)]
    pub version: u8,
    #[deku(bits = 12)]
    pub size: u16,
    #[deku(bytes_read = "size - 2")]
    pub entries: Vec<Entry>,
    pub last: u8,
}

/// Two lists, with their lengths in front of both.
#[deku(endian = "big")]
pub struct Pair {
    pub names: u8,
    pub values: u8,
    #[deku(count = "names")]
    pub name: Vec<u8>,
    #[deku(count = "values")]
    pub value: Vec<u16>,
}

/// Values, and a time after them if a flag in front says so.
#[deku(endian = "big")]
pub struct Late {
    #[deku(bits = 7)]
    pub sensor: u8,
    #[deku(bits = 1)]
    pub has_time: bool,
    pub count: u8,
    #[deku(count = "count")]
    pub values: Vec<i16>,
    #[deku(cond = "*has_time")]
    pub time: Option<u32>,
}

/// A log, which goes on to the end.
#[deku(endian = "big")]
pub struct Log {
    #[deku(bits = 4)]
    pub version: u8,
    #[deku(bits = 12)]
    pub number: u16,
    #[deku(read_all)]
    pub words: Vec<u16>,
}
