//! An entry of a stack of labels, RFC 3032.

#[deku(endian = "big")]
struct Label {
    #[deku(bits = 20)]
    label: u32,
    #[deku(bits = 3)]
    class: u8,
    #[deku(bits = 1)]
    is_last: bool,
    hops: u8,
}
