//! The directory of an icon file: a list of pictures.

#[deku(endian = "little")]
struct Entry {
    width: u8,
    height: u8,
    #[deku(pad_bytes_after = "1")]
    colours: u8,
    planes: u16,
    depth: u16,
    bytes: u32,
    at: u32,
}

#[deku(endian = "little")]
struct Directory {
    #[deku(assert_eq = "0")]
    zero: u16,
    #[deku(assert_eq = "1")]
    kind: u16,
    count: u16,
    #[deku(count = "count")]
    entries: Vec<Entry>,
}
