//! The table of partitions of an old disk: four entries, and the bytes that end the sector.

#[deku(endian = "little")]
struct Entry {
    status: u8,
    first: [u8; 3],
    kind: u8,
    last: [u8; 3],
    begin: u32,
    sectors: u32,
}

#[deku(endian = "little")]
struct Table {
    entries: [Entry; 4],
    #[deku(assert_eq = "0xAA55")]
    end: u16,
}
