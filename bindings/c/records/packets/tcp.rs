//! The header of a TCP segment without its options, RFC 9293.
#[deku(endian = "big")]
struct TcpHeader {
    /// The port of the sender.
    source: u16,
    /// The port of the receiver.
    destination: u16,
    /// The number of the first byte that follows.
    sequence: u32,
    /// The number of the byte that is expected next, if `ack` is set.
    acknowledgment: u32,
    /// The length of the header and its options in words of four bytes: at least 5, 4 bits.
    #[deku(bits = 4)]
    words: u8,
    /// Reserved, 4 bits.
    #[deku(bits = 4)]
    reserved: u8,
    /// The sender sends less, since the network is congested.
    #[deku(bits = 1)]
    cwr: bool,
    /// The network is congested.
    #[deku(bits = 1)]
    ece: bool,
    /// `urgent` counts.
    #[deku(bits = 1)]
    urg: bool,
    /// `acknowledgment` counts.
    #[deku(bits = 1)]
    ack: bool,
    /// The receiver is to hand on what it has.
    #[deku(bits = 1)]
    psh: bool,
    /// The connection is broken off.
    #[deku(bits = 1)]
    rst: bool,
    /// The connection begins.
    #[deku(bits = 1)]
    syn: bool,
    /// The sender sends no more.
    #[deku(bits = 1)]
    fin: bool,
    /// The number of bytes that the sender can take.
    window: u16,
    /// The checksum of the segment and of the addresses.
    checksum: u16,
    /// Where urgent bytes end.
    urgent: u16,
}
