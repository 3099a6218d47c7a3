//! Numbers with a sign, beside lists and options.

/// A drift, and what was seen.
#[deku(endian = "big")]
struct Drift {
    #[deku(bits = 4)]
    kind: u8,
    #[deku(bits = 12)]
    turn: i16,
    slope: i16,
    step: i8,
    count: u8,
    #[deku(count = "count")]
    marks: Vec<u8>,
    last: i32,
}

/// A slope, and how much more it is.
#[deku(endian = "big")]
struct Tilt {
    kind: u8,
    slope: i16,
    #[deku(cond = "*kind == 1")]
    more: Option<i16>,
}

/// What moved.
#[deku(id_type = "u8", endian = "big")]
enum Step {
    #[deku(id = 1)]
    Turned(i16),
    #[deku(id = 2)]
    Drifted(Drift),
}
