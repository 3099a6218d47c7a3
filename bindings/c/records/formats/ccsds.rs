//! CCSDS space packets: the primary header of CCSDS 133.0-B-2, and a sample of telemetry.
#[deku(endian = "big")]
struct SpacePacket {
    /// The version of the packet.
    #[deku(bits = 3)]
    version: u8,
    /// 0 for telemetry, 1 for a command.
    #[deku(bits = 1)]
    kind: u8,
    /// Whether a secondary header follows.
    #[deku(bits = 1)]
    secondary: u8,
    /// The application process identifier.
    #[deku(bits = 11)]
    application: u16,
    /// The place of the packet in a group: 3 for a packet of its own.
    #[deku(bits = 2)]
    grouping: u8,
    /// The sequence count.
    #[deku(bits = 14)]
    count: u16,
    /// The number of bytes after the header, minus one.
    length: u16,
}

/// A sample of telemetry.
#[deku(endian = "big")]
struct TelemetrySample {
    #[deku(bits = 10)]
    voltage: u16,
    #[deku(bits = 12)]
    current: u16,
}
