//! The headers of a bitmap file.

#[deku(endian = "little", magic = b"BM")]
struct Bitmap {
    size: u32,
    #[deku(pad_bytes_before = "4")]
    pixels_at: u32,
    picture: Picture,
}

/// The size is 40 bytes.
#[deku(endian = "little")]
struct Picture {
    #[deku(assert_eq = "40")]
    size: u32,
    width: i32,
    height: i32,
    #[deku(assert_eq = "1")]
    planes: u16,
    depth: u16,
    compression: u32,
    bytes: u32,
    across: i32,
    down: i32,
    colours: u32,
    important: u32,
}
