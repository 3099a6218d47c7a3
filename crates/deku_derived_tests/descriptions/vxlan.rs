//! The header of a virtual network over UDP, RFC 7348.

#[deku(endian = "big")]
struct Vxlan {
    #[deku(pad_bits_before = "4", bits = 1, pad_bits_after = "27")]
    has_network: bool,
    #[deku(bits = 24, pad_bits_after = "8")]
    network: u32,
}
