//! Events of a device, whose id has three bytes in an order of its own.

#[deku(id_type = "u32", bytes = 3, id_endian = "little", endian = "big")]
enum Event {
    #[deku(id = 0x010203)]
    Key { code: u16, is_down: bool },
    #[deku(id = "0x040506")]
    Moved(i16, i16),
    #[deku(id_pat = "1..=9")]
    Button(u32, u8),
}
