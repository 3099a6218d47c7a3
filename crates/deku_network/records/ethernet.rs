//! The header of an Ethernet frame and the tag of a virtual network, IEEE 802.3 and 802.1Q.
//!
//! ```text
//! destination  48 bits
//! source       48 bits
//! kind         16 bits   what follows: 0800 IPv4, 0806 ARP, 86DD IPv6, 8100 and 88A8 a tag;
//!                        less than 1536: how many bytes follow
//!
//! priority      3 bits
//! may_drop      1 bit
//! network      12 bits
//! kind         16 bits   what follows the tag
//! ```

/// The header of a frame.
#[deku(endian = "big")]
struct Ethernet {
    /// The address of the receiver.
    destination: [u8; 6],
    /// The address of the sender.
    source: [u8; 6],
    /// What follows, or how many bytes if it is less than 1536.
    kind: u16,
}

/// The tag of a virtual network.
#[deku(endian = "big")]
struct Tag {
    /// How urgent the frame is, 3 bits.
    #[deku(bits = 3)]
    priority: u8,
    /// Whether the frame may be dropped before others.
    #[deku(bits = 1)]
    may_drop: bool,
    /// The number of the network, 12 bits.
    #[deku(bits = 12)]
    network: u16,
    /// What follows the tag.
    kind: u16,
}
