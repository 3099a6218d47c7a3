//! A list whose count is a quotient of what a field says, and is refused if that is 0.

#[deku(endian = "big")]
struct Samples {
    #[deku(assert = "(length + 1) % 11 == 0")]
    length: u16,
    #[deku(count = "(*length as usize + 1) / 11 * 4")]
    items: Vec<u16>,
}
