//! The header of an IPv6 packet, RFC 8200.
#[deku(endian = "big")]
struct Ipv6 {
    /// 6.
    #[deku(bits = 4, assert_eq = "6")]
    version: u8,
    /// The class of traffic.
    traffic: u8,
    /// The same for all packets of a flow, 20 bits.
    #[deku(bits = 20)]
    flow: u32,
    /// The number of bytes after this header.
    length: u16,
    /// What follows: 0, 43, 44 and 60 an extension header, 6 TCP, 17 UDP, 58 ICMPv6.
    next: u8,
    /// How many hops are left.
    hops: u8,
    /// The address of the sender.
    source: [u8; 16],
    /// The address of the receiver.
    destination: [u8; 16],
}
