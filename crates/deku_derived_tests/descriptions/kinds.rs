//! Eight kinds under an id of a byte.

#[deku(id_type = "u8", endian = "big")]
enum Kinds {
    #[deku(id = 1)]
    One(u16),
    #[deku(id = 2)]
    Two(u16),
    #[deku(id = 3)]
    Three(u32),
    #[deku(id = 4)]
    Four,
    #[deku(id = 5)]
    Five(u8),
    #[deku(id = 6)]
    Six(u8, u8),
    #[deku(id = 7)]
    Seven(u16),
    #[deku(id = 8)]
    Eight,
}
