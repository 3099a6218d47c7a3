//! Enums.

/// Kinds under a byte.
#[deku(id_type = "u8", endian = "little")]
enum UnderByte {
    #[deku(id = 0x01)]
    First(u8),
    #[deku(id = 0x02)]
    Second(u8, u16),
}

/// Kinds with numbers.
#[repr(u8)]
#[deku(id_type = "u8")]
enum Numbered {
    First = 0x01,
    Second,
}

/// A range of ids, and all others.
#[deku(id_type = "u8")]
enum Patterns {
    #[deku(id = 0x01)]
    One(u8),
    #[deku(id_pat = "0x02..=0x06")]
    Few { id: u8 },
    #[deku(id_pat = "_")]
    Others(u8),
}

/// Ids of four bits.
#[deku(id_type = "u8", bits = 4)]
enum UnderBits {
    #[deku(id = 0b1001)]
    Only(#[deku(bits = 4)] u8, u8),
}

/// Ids of two bytes of a number of four.
#[deku(id_type = "u32", bytes = 2, endian = "little")]
enum UnderBytes {
    #[deku(id = 0xBEEF)]
    Only(u8),
}
