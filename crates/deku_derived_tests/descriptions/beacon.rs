//! The header of an advertisement of Bluetooth with low energy, low bits first.

#[deku(bit_order = "lsb", endian = "little")]
struct Advertisement {
    #[deku(bits = 4, pad_bits_after = "1")]
    kind: u8,
    #[deku(bits = 1)]
    can_choose: bool,
    #[deku(bits = 1)]
    is_random: bool,
    #[deku(bits = 1)]
    wants_random: bool,
    length: u8,
    address: [u8; 6],
    #[deku(count = "length - 6")]
    content: Vec<u8>,
}
