//! An inode of a file system whose bits are taken from the low end, with a record in it.

#[deku(bit_order = "lsb", endian = "little")]
struct Inode {
    #[deku(bits = "4")]
    kind: u8,
    #[deku(bits = "12")]
    mode: u16,
    owner: u8,
    #[deku(bits = 5, pad_bits_after = "3")]
    level: u8,
    at: Place,
}

#[deku(endian = "big")]
struct Place(u16, u32);
