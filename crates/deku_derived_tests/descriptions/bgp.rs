//! The header of a message of BGP, RFC 4271.

const HEADER: u16 = 19;

#[deku(endian = "big")]
struct Bgp {
    marker: [u8; 16],
    #[deku(assert = "length >= HEADER && length <= 4096")]
    length: u16,
    kind: MessageKind,
}

#[deku(id_type = "u8")]
enum MessageKind {
    Open = 1,
    Update = 2,
    Notification = 3,
    KeepAlive = 4,
}
