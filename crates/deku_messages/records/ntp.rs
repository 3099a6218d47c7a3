//! The header of a packet of network time, RFC 5905.
//!
//! ```text
//! leap              2 bits   1 and 2: the day has a second more, or less; 3: no time is known
//! version           3 bits
//! mode              3 bits   3 a client, 4 a server
//! stratum           8 bits   how far from a clock
//! poll              8 bits   how often, as a power of two in seconds
//! precision         8 bits   of the clock, as a power of two in seconds
//! root_delay       32 bits   in seconds, 16 bits after the point
//! root_dispersion  32 bits   the same
//! reference_id     32 bits
//! reference        64 bits   times: seconds since 1900, 32 bits after the point
//! origin           64 bits
//! receive          64 bits
//! transmit         64 bits
//! ```

/// The header of a packet.
#[deku(endian = "big")]
struct Ntp {
    /// Whether a second is added or left out, 2 bits.
    #[deku(bits = 2)]
    leap: u8,
    /// The version of the protocol, 3 bits.
    #[deku(bits = 3)]
    version: u8,
    /// Who speaks: 3 a client, 4 a server, 3 bits.
    #[deku(bits = 3)]
    mode: u8,
    /// How many servers there are from here to a clock.
    stratum: u8,
    /// How often packets are sent, as a power of two in seconds.
    poll: i8,
    /// The precision of the clock, as a power of two in seconds.
    precision: i8,
    /// The time to the clock and back, in units of 1/65536 s.
    root_delay: u32,
    /// How wrong the time may be, in the same units.
    root_dispersion: u32,
    /// Which clock or server the time comes from.
    reference_id: [u8; 4],
    /// When the clock was last set, in units of 2 to the power of -32 s since 1900.
    reference: u64,
    /// When the client sent its packet.
    origin: u64,
    /// When the server received it.
    receive: u64,
    /// When this packet was sent.
    transmit: u64,
}
