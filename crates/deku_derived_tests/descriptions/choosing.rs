//! Enums whose id is a field of the record that holds them.

/// Kinds under an id that is elsewhere.
#[deku(ctx = "kind: u8", id = "kind")]
enum Body {
    #[deku(id = 1)]
    Number(#[deku(endian = "big")] u16),
    #[deku(id = 2)]
    Nothing,
}

/// An enum after its id.
struct Message {
    #[deku(bits = 4)]
    version: u8,
    #[deku(bits = 4)]
    kind: u8,
    #[deku(ctx = "*kind")]
    body: Body,
}

/// A place.
#[deku(endian = "big")]
struct Place {
    across: u16,
    up: u16,
}

/// Kinds of a struct, of fields with names, and of nothing.
#[deku(ctx = "id: u16", id = "id", endian = "big")]
enum Step {
    #[deku(id = 1)]
    At(Place),
    #[deku(id = 0x202)]
    By { times: u8, turn: u16 },
    Home = 3,
}

/// Two enums of one id.
#[deku(endian = "big")]
struct Steps {
    id: u16,
    #[deku(ctx = "*id")]
    first: Step,
    count: u8,
    #[deku(ctx = "*id")]
    last: Step,
}

/// Steps and a list.
struct Walk {
    steps: Steps,
    length: u8,
    #[deku(count = "length")]
    marks: Vec<u8>,
}
