//! The header of an IPv6 packet and its extension headers, RFC 8200.
//!
//! ```text
//! version       4 bits   6
//! class         8 bits
//! flow         20 bits
//! length       16 bits   the bytes after this header
//! next          8 bits   what follows: 0, 43, 44 and 60 an extension header, 6 TCP, 17 UDP,
//!                        58 ICMPv6, 59 nothing
//! hops          8 bits
//! source      128 bits
//! destination 128 bits
//! ```

/// The header of a packet.
#[deku(endian = "big")]
struct Ipv6 {
    /// 6, of 4 bits.
    #[deku(bits = 4, assert_eq = "6")]
    version: u8,
    /// The kind of traffic.
    class: u8,
    /// Packets of one flow have the same number, 20 bits.
    #[deku(bits = 20)]
    flow: u32,
    /// How many bytes follow.
    length: u16,
    /// What follows.
    next: u8,
    /// How many routers may still pass it on.
    hops: u8,
    /// Who sent it.
    source: Ipv6Addr,
    /// Whom it is for.
    destination: Ipv6Addr,
}

/// The extension headers hop-by-hop (0) and destination (60): options for the routers on the way,
/// and for the receiver.
#[deku(endian = "big")]
struct Options {
    /// What follows.
    next: u8,
    /// The units of eight bytes after the first.
    length: u8,
    /// The options, each a kind, a length and as many bytes, or the byte 0.
    #[deku(count = "length * 8 + 6")]
    options: Vec<u8>,
}

/// The extension header that lists routers to pass (43).
#[deku(endian = "big")]
struct Routing {
    /// What follows.
    next: u8,
    /// The units of eight bytes after the first.
    length: u8,
    /// The kind of routing.
    kind: u8,
    /// How many routers are still to pass.
    left: u8,
    /// What the kind says.
    #[deku(count = "length * 8 + 4")]
    route: Vec<u8>,
}

/// The extension header of a packet that was cut (44).
#[deku(endian = "big")]
struct Fragment {
    /// What follows.
    next: u8,
    /// Reserved.
    reserved: u8,
    /// Where this fragment begins, in units of eight bytes, 13 bits.
    #[deku(bits = 13)]
    offset: u16,
    /// Reserved, 2 bits.
    #[deku(bits = 2)]
    unused: u8,
    /// Whether more fragments follow this one.
    #[deku(bits = 1)]
    more: bool,
    /// Of all fragments of a packet the same.
    identification: u32,
}
