//! A message of a u-blox receiver, with its two check bytes after the content.

#[deku(endian = "little", magic = b"\xB5\x62")]
struct Content {
    class: u8,
    id: u8,
    length: u16,
    #[deku(count = "length")]
    bytes: Vec<u8>,
}

struct Message {
    content: Content,
    checks: [u8; 2],
}
