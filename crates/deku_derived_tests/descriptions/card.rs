//! The register of an SD card's size, version 2.

#[deku(endian = "big")]
struct Card {
    #[deku(bits = 2, assert_eq = "1", pad_bits_after = "6")]
    structure: u8,
    access: u8,
    clocks: u8,
    speed: u8,
    #[deku(bits = 12)]
    classes: u16,
    #[deku(bits = 4)]
    block: u8,
    #[deku(bits = 1)]
    partial: bool,
    #[deku(bits = 1)]
    write_misaligned: bool,
    #[deku(bits = 1)]
    read_misaligned: bool,
    #[deku(bits = 1, pad_bits_after = "6")]
    has_driver: bool,
    #[deku(bits = 22, pad_bits_after = "1")]
    size: u32,
    #[deku(bits = 1)]
    erases_blocks: bool,
    #[deku(bits = 7)]
    sector: u8,
    #[deku(bits = 7)]
    group: u8,
    #[deku(bits = 1, pad_bits_after = "2")]
    protects_groups: bool,
    #[deku(bits = 3)]
    factor: u8,
    #[deku(bits = 4)]
    written: u8,
    #[deku(bits = 1, pad_bits_after = "5")]
    writes_part: bool,
    #[deku(bits = 1)]
    format_group: bool,
    #[deku(bits = 1)]
    copied: bool,
    #[deku(bits = 1)]
    locked: bool,
    #[deku(bits = 1)]
    locked_now: bool,
    #[deku(bits = 2, pad_bits_after = "2")]
    format: u8,
    #[deku(bits = 7)]
    check: u8,
    #[deku(bits = 1, assert = "last")]
    last: bool,
}
