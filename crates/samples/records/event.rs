//! What a station reports.
#[deku(id_type = "u8", endian = "big")]
enum Event {
    #[deku(id = 1)]
    Started,
    #[deku(id = 2)]
    Passed { sensor: u8, limit: u16 },
    #[deku(id_pat = "_")]
    Other(u8, u16),
}
