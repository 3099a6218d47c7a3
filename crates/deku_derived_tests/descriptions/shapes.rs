//! Lines of points.

#[deku(endian = "little")]
struct Point {
    x: i16,
    y: i16,
}

#[deku(endian = "little")]
struct Line {
    from: Point,
    to: Point,
    corners: [Point; 2],
    #[deku(bytes = 3)]
    colour: u32,
}
