//! The first block of a FLAC file: rates and lengths that share bytes.

#[deku(endian = "big", magic = b"fLaC")]
struct Stream {
    #[deku(bits = 1)]
    is_last: bool,
    #[deku(bits = 7, assert_eq = "0")]
    kind: u8,
    #[deku(bits = 24, assert_eq = "34")]
    length: u32,
    smallest_block: u16,
    largest_block: u16,
    #[deku(bits = 24)]
    smallest_frame: u32,
    #[deku(bits = 24)]
    largest_frame: u32,
    #[deku(bits = 20)]
    rate: u32,
    #[deku(bits = 3)]
    channels: u8,
    #[deku(bits = 5)]
    depth: u8,
    #[deku(bits = 36)]
    samples: u64,
    digest: [u8; 16],
}
