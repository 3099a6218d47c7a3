//! The fixed part of a DHCP message, RFC 2131, with the mark of its options.

#[deku(endian = "big")]
struct Boot {
    operation: u8,
    hardware: u8,
    hardware_length: u8,
    hops: u8,
    transaction: u32,
    seconds: u16,
    flags: u16,
    client: Ipv4Addr,
    yours: Ipv4Addr,
    server: Ipv4Addr,
    relay: Ipv4Addr,
    address: [u8; 16],
    name: [u8; 64],
    file: [u8; 128],
    #[deku(magic = b"\x63\x82\x53\x63")]
    first: u8,
}
