//! The header of an ELF file of 32 bits, the low byte of each number first.

#[deku(endian = "little", magic = b"\x7FELF\x01\x01\x01")]
struct Elf {
    system: u8,
    #[deku(pad_bytes_after = "7")]
    version_of_system: u8,
    kind: u16,
    machine: u16,
    version: u32,
    entry: u32,
    segments_at: u32,
    sections_at: u32,
    flags: u32,
    size: u16,
    segment_size: u16,
    segments: u16,
    section_size: u16,
    sections: u16,
    names: u16,
}
