//! The front of a frame of LoRaWAN 1.0 from a device, low byte first, high bits first.

#[deku(endian = "little")]
struct Frame {
    #[deku(bits = 3)]
    kind: u8,
    #[deku(pad_bits_before = "3", bits = 2)]
    major: u8,
    device: u32,
    #[deku(bits = 1)]
    adapts: bool,
    #[deku(bits = 1)]
    asks: bool,
    #[deku(bits = 1)]
    acknowledges: bool,
    #[deku(bits = 1)]
    is_class_b: bool,
    #[deku(bits = 4)]
    options_length: u8,
    counter: u16,
    #[deku(count = "options_length")]
    options: Vec<u8>,
}
