//! A frame whose parts are written one after the other.

/// What a station sends, to the end of its packet.
#[deku(endian = "big")]
struct Frame {
    has_position: bool,
    count: u8,
    #[deku(count = "count")]
    samples: Vec<u16>,
    #[deku(cond = "has_position")]
    position: Option<u32>,
    size: u8,
    #[deku(count = "size")]
    name: Vec<u8>,
    #[deku(assert = "total == size")]
    total: u8,
    #[deku(read_all)]
    notes: Vec<u8>,
}
