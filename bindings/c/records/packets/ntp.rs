//! The header of a packet of network time, RFC 5905.
#[deku(endian = "big")]
struct Ntp {
    /// 1 and 2: the day has a second more, or less; 3: no time is known; 2 bits.
    #[deku(bits = 2)]
    leap: u8,
    /// The version of the protocol, 3 bits.
    #[deku(bits = 3)]
    version: u8,
    /// Who speaks: 3 a client, 4 a server, 3 bits.
    #[deku(bits = 3)]
    mode: u8,
    /// The number of servers from here to a clock.
    stratum: u8,
    /// How often packets are sent, as a power of two in seconds.
    poll: i8,
    /// The precision of the clock, as a power of two in seconds.
    precision: i8,
    /// The time to the clock and back, in units of 1/65536 s.
    root_delay: u32,
    /// How wrong the time may be, in the same units.
    root_dispersion: u32,
    /// Which clock or server the time comes from.
    reference_id: [u8; 4],
    /// When the clock was last set, in units of 2 to the power of -32 s since 1900.
    reference: u64,
    /// When the client sent its packet, in the same units.
    origin: u64,
    /// When the server received it.
    receive: u64,
    /// When this packet was sent.
    transmit: u64,
}
