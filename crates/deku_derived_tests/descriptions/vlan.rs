//! The tag of a virtual network, IEEE 802.1Q.

#[deku(endian = "big")]
struct Tag {
    #[deku(bits = 3)]
    priority: u8,
    #[deku(bits = 1)]
    may_drop: bool,
    #[deku(bits = 12)]
    network: u16,
    kind: u16,
}
