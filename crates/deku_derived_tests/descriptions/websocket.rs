//! The header of a frame of a web socket, RFC 6455: its length is in one of three places.

#[deku(endian = "big")]
struct Frame {
    #[deku(bits = 1, pad_bits_after = "3")]
    is_last: bool,
    #[deku(bits = 4)]
    opcode: u8,
    #[deku(bits = 1)]
    is_masked: bool,
    #[deku(bits = 7)]
    length: u8,
    #[deku(cond = "length == 126")]
    longer: Option<u16>,
    #[deku(cond = "length == 127")]
    longest: Option<u64>,
    #[deku(cond = "is_masked")]
    mask: Option<[u8; 4]>,
}
