//! A sample that may have a time.
#[deku(endian = "big")]
struct Timed {
    #[deku(bits = 7)]
    sensor: u8,
    #[deku(bits = 1)]
    has_time: bool,
    value: u16,
    #[deku(cond = "has_time")]
    time: Option<u32>,
}
