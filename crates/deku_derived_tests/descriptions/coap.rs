//! The header of a message of CoAP, RFC 7252, with its token.

#[deku(endian = "big")]
struct Coap {
    #[deku(bits = 2, assert_eq = "1")]
    version: u8,
    #[deku(bits = 2)]
    kind: u8,
    #[deku(bits = 4, assert = "token_length <= 8")]
    token_length: u8,
    #[deku(bits = 3)]
    class: u8,
    #[deku(bits = 5)]
    detail: u8,
    id: u16,
    #[deku(count = "token_length")]
    token: Vec<u8>,
}
