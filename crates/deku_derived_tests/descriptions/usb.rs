//! The descriptor of a device on a serial bus, and a request to it.

#[deku(endian = "little", magic = b"\x12\x01")]
struct Device {
    version: u16,
    class: u8,
    subclass: u8,
    protocol: u8,
    packet: u8,
    vendor: u16,
    product: u16,
    release: u16,
    names: (u8, u8, u8),
    configurations: u8,
}

#[deku(endian = "little", bit_order = "lsb")]
struct Setup {
    #[deku(bits = 5)]
    recipient: u8,
    #[deku(bits = 2)]
    kind: u8,
    #[deku(bits = 1)]
    to_host: bool,
    request: u8,
    value: u16,
    index: u16,
    length: u16,
}
