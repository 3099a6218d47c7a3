//! A request to a proxy, RFC 1928: an address of a kind that a byte chooses, and a port.

#[deku(endian = "big")]
struct Request {
    #[deku(assert_eq = "5")]
    version: u8,
    #[deku(pad_bytes_after = "1")]
    command: u8,
    address: Address,
    port: u16,
}

#[deku(id_type = "u8", endian = "big")]
enum Address {
    #[deku(id = 1)]
    Four(Ipv4Addr),
    #[deku(id = 4)]
    Six(Ipv6Addr),
}
