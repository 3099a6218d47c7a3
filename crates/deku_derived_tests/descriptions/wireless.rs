//! The control field of a frame of IEEE 802.11, low bits first.

#[deku(endian = "little", bit_order = "lsb")]
struct Control {
    #[deku(bits = 2)]
    version: u8,
    #[deku(bits = 2)]
    kind: u8,
    #[deku(bits = 4)]
    subkind: u8,
    #[deku(bits = 1)]
    to_system: bool,
    #[deku(bits = 1)]
    from_system: bool,
    #[deku(bits = 1)]
    more_fragments: bool,
    #[deku(bits = 1)]
    again: bool,
    #[deku(bits = 1)]
    sleeps: bool,
    #[deku(bits = 1)]
    more_data: bool,
    #[deku(bits = 1)]
    is_protected: bool,
    #[deku(bits = 1)]
    in_order: bool,
    duration: u16,
    receiver: [u8; 6],
}
