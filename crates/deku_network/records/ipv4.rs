//! The header of an IPv4 packet with its options, RFC 791. The byte after the length of the header
//! is that of RFC 2474 and RFC 3168.
//!
//! ```text
//!  0       4       8              14  16                           31
//! +-------+-------+--------------+---+------------------------------+
//! |   4   | words |   service    |con|            total             |
//! +-------+-------+--------------+---+-+-+-+------------------------+
//! |          identification          |r|k|m|         offset         |
//! +---------------+------------------+-+-+-+------------------------+
//! |     hops      |     protocol     |           checksum           |
//! +---------------+------------------+------------------------------+
//! |                              source                             |
//! |                           destination                           |
//! |          options, four bytes for each word after the fifth      |
//! +-----------------------------------------------------------------+
//! ```

/// The header of a packet.
#[deku(endian = "big")]
struct Ipv4 {
    /// 4, of 4 bits.
    #[deku(bits = 4, assert_eq = "4")]
    version: u8,
    /// How many words of four bytes the header has: at least 5, 4 bits.
    #[deku(bits = 4)]
    words: u8,
    /// The kind of service, 6 bits.
    #[deku(bits = 6)]
    service: u8,
    /// Whether the network is congested, 2 bits.
    #[deku(bits = 2)]
    congestion: u8,
    /// The bytes of the header and what follows it.
    total: u16,
    /// Of all fragments of a packet the same.
    identification: u16,
    /// Reserved.
    #[deku(bits = 1)]
    reserved: bool,
    /// Whether the packet may not be cut into fragments.
    #[deku(bits = 1)]
    keep_whole: bool,
    /// Whether more fragments follow this one.
    #[deku(bits = 1)]
    more: bool,
    /// Where this fragment begins, in units of eight bytes, 13 bits.
    #[deku(bits = 13)]
    offset: u16,
    /// How many routers may still pass it on.
    hops: u8,
    /// What follows: 1 ICMP, 6 TCP, 17 UDP.
    protocol: u8,
    /// The checksum of the header.
    checksum: u16,
    /// Who sent it.
    source: Ipv4Addr,
    /// Whom it is for.
    destination: Ipv4Addr,
    /// The options, as whole words.
    #[deku(count = "(words - 5) * 4")]
    options: Vec<u8>,
}
