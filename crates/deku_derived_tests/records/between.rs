//! An enum that a field chooses, between lists.

/// Kinds under an id that is elsewhere.
#[deku(ctx = "kind: u8", id = "kind")]
enum Body {
    #[deku(id = 1)]
    Number(#[deku(endian = "big")] u16),
    #[deku(id = 2)]
    Nothing,
}

/// A list, the enum, and a list.
struct Between {
    length: u8,
    #[deku(count = "length")]
    marks: Vec<u8>,
    kind: u8,
    #[deku(ctx = "*kind")]
    body: Body,
    count: u8,
    #[deku(count = "count")]
    rest: Vec<u8>,
}
