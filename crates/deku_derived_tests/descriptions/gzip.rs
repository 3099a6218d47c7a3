//! The header of a gzip file, RFC 1952, up to its optional parts.

#[deku(endian = "little", bit_order = "lsb", magic = b"\x1F\x8B\x08")]
struct Gzip {
    #[deku(bits = 1)]
    is_text: bool,
    #[deku(bits = 1)]
    has_check: bool,
    #[deku(bits = 1)]
    has_extra: bool,
    #[deku(bits = 1)]
    has_name: bool,
    #[deku(bits = 1, pad_bits_after = "3")]
    has_comment: bool,
    time: u32,
    speed: u8,
    system: u8,
    #[deku(cond = "has_extra")]
    extra: Option<u16>,
}
