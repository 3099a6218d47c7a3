//! Enums whose kinds hold memory.

/// A mark.
#[deku(endian = "big")]
struct Mark {
    across: i16,
    up: i16,
}

/// Marks after their number.
struct Path {
    count: u8,
    #[deku(count = "count")]
    marks: Vec<Mark>,
}

/// What is said.
#[deku(id_type = "u8", endian = "big")]
enum Event {
    #[deku(id = 0)]
    Nothing,
    #[deku(id = 1)]
    Text {
        length: u16,
        #[deku(count = "length")]
        data: Vec<u8>,
    },
    #[deku(id = 2)]
    Answer {
        #[deku(bits = 1)]
        has_time: bool,
        #[deku(bits = 7)]
        code: u8,
        #[deku(cond = "*has_time")]
        time: Option<u32>,
    },
    #[deku(id = 3)]
    Walk(Path),
    #[deku(id = 4)]
    Alarm { code: u8 },
    #[deku(id_pat = "_")]
    Other {
        kind: u8,
        length: u8,
        #[deku(bytes_read = "length")]
        bytes: Vec<u8>,
    },
}

/// Two of them.
#[deku(endian = "big")]
struct Log {
    first: Event,
    between: u16,
    second: Event,
}
