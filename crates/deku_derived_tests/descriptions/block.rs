//! Blocks of telemetry: a record with a magic, a check, flags, an option, a record, an enum and a
//! counted list, inside another one.

/// Where it is.
#[deku(endian = "big")]
struct Position {
    latitude: i32,
    longitude: i32,
    height: i16,
    speed: u16,
    #[deku(bits = 9)]
    course: u16,
    #[deku(bits = 7)]
    quality: u8,
}

/// What happened.
#[deku(id_type = "u8", endian = "big")]
enum Event {
    #[deku(id = 0)]
    Nothing,
    #[deku(id = 1)]
    Alarm { code: u8, value: u16 },
    #[deku(id_pat = "_")]
    Other { id: u8, value: u32 },
}

/// A block.
#[deku(endian = "big", magic = b"TM")]
struct Block {
    #[deku(bits = 2, assert = "*version == 1")]
    version: u8,
    #[deku(bits = 1)]
    urgent: bool,
    #[deku(bits = 1)]
    has_time: bool,
    #[deku(bits = 12)]
    source: u16,
    #[deku(cond = "*has_time")]
    time: Option<u32>,
    position: Position,
    event: Event,
    count: u8,
    #[deku(count = "count")]
    values: Vec<u16>,
}

/// Two blocks.
#[deku(endian = "big")]
struct Pair {
    first: Block,
    between: u16,
    second: Block,
}
