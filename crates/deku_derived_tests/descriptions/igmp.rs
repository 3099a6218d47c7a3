//! A report of IGMP, RFC 3376: groups of which a host is a member, without sources.

#[deku(endian = "big")]
struct Group {
    kind: u8,
    auxiliary: u8,
    #[deku(assert_eq = "0")]
    sources: u16,
    address: Ipv4Addr,
}

#[deku(endian = "big")]
struct Report {
    #[deku(assert_eq = "0x22", pad_bytes_after = "1")]
    kind: u8,
    #[deku(pad_bytes_after = "2")]
    checksum: u16,
    groups: u16,
    #[deku(count = "groups")]
    items: Vec<Group>,
}
