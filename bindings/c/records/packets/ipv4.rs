//! The header of an IPv4 packet without its options, RFC 791.
#[deku(endian = "big")]
struct Ipv4 {
    /// 4.
    #[deku(bits = 4, assert_eq = "4")]
    version: u8,
    /// The length of the header in words of four bytes.
    #[deku(bits = 4)]
    words: u8,
    /// The class of service.
    #[deku(bits = 6)]
    service: u8,
    /// The congestion notification.
    #[deku(bits = 2)]
    congestion: u8,
    /// The number of bytes of the header and its payload.
    total_length: u16,
    /// The same for all fragments of a packet.
    identification: u16,
    /// 2 forbids fragments, 1 says that more follow.
    #[deku(bits = 3)]
    flags: u8,
    /// The place of the fragment, in units of eight bytes.
    #[deku(bits = 13)]
    fragment_offset: u16,
    /// How many hops are left.
    time_to_live: u8,
    /// The protocol of the payload: 6 TCP, 17 UDP.
    protocol: u8,
    /// The checksum of the header.
    checksum: u16,
    /// The address of the sender.
    source: u32,
    /// The address of the receiver.
    destination: u32,
}
