//! Values of a sensor, and how many there are.
#[deku(endian = "big")]
struct Batch {
    #[deku(update = "self.values.len()")]
    count: u8,
    #[deku(count = "count")]
    values: Vec<i16>,
}
