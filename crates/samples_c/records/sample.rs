//! A sample of a sensor.
#[deku(endian = "big")]
struct Sample {
    #[deku(bits = 4)]
    sensor: u8,
    #[deku(bits = 4)]
    state: u8,
    value: u16,
}
