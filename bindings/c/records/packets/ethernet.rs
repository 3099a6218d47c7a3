//! The header of an Ethernet frame and the tag of a virtual network, IEEE 802.3 and 802.1Q.

/// The header of a frame.
#[deku(endian = "big")]
struct EthernetHeader {
    /// The address of the receiver.
    destination: [u8; 6],
    /// The address of the sender.
    source: [u8; 6],
    /// What follows: 0x0800 IPv4, 0x0806 ARP, 0x86DD IPv6, 0x8100 a tag. Below 1536 it is
    /// the number of bytes that follow.
    kind: u16,
}

/// The tag of a virtual network, after the kind 0x8100 or 0x88A8.
#[deku(endian = "big")]
struct VlanTag {
    /// How urgent the frame is, 3 bits.
    #[deku(bits = 3)]
    priority: u8,
    /// Whether the frame may be dropped before others.
    #[deku(bits = 1)]
    may_drop: bool,
    /// The number of the network, 12 bits.
    #[deku(bits = 12)]
    network: u16,
    /// What follows the tag, as in the header.
    kind: u16,
}
