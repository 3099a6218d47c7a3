//! The header of a frame of AAC audio.

#[deku(endian = "big")]
struct Frame {
    #[deku(bits = 12, assert_eq = "0xFFF")]
    sync: u16,
    #[deku(bits = 1)]
    is_mpeg_two: bool,
    #[deku(bits = 2, assert_eq = "0")]
    layer: u8,
    #[deku(bits = 1)]
    unprotected: bool,
    #[deku(bits = 2)]
    profile: u8,
    #[deku(bits = 4)]
    rate: u8,
    #[deku(bits = 1)]
    private: bool,
    #[deku(bits = 3)]
    channels: u8,
    #[deku(bits = 4)]
    flags: u8,
    #[deku(bits = 13)]
    length: u16,
    #[deku(bits = 11)]
    fullness: u16,
    #[deku(bits = 2)]
    blocks: u8,
    #[deku(cond = "!unprotected")]
    check: Option<u16>,
}
