//! An advertisement of a virtual router, RFC 3768: its addresses are counted.

#[deku(endian = "big")]
struct Advertisement {
    #[deku(bits = 4, assert_eq = "2")]
    version: u8,
    #[deku(bits = 4, assert_eq = "1")]
    kind: u8,
    router: u8,
    priority: u8,
    count: u8,
    authentication: u8,
    interval: u8,
    checksum: u16,
    #[deku(count = "count")]
    addresses: Vec<Ipv4Addr>,
}
