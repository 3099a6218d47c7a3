//! The header of a packet of an MPEG transport stream, ISO 13818-1.

#[deku(endian = "big", magic = b"G")]
struct Transport {
    #[deku(bits = 1)]
    is_broken: bool,
    #[deku(bits = 1)]
    begins: bool,
    #[deku(bits = 1)]
    priority: bool,
    #[deku(bits = 13)]
    program: u16,
    #[deku(bits = 2)]
    scrambling: u8,
    #[deku(bits = 1)]
    has_adaptation: bool,
    #[deku(bits = 1)]
    has_payload: bool,
    #[deku(bits = 4)]
    counter: u8,
    #[deku(cond = "has_adaptation")]
    adaptation_length: Option<u8>,
}
