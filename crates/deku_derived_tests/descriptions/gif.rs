//! The beginning of a GIF file: the screen, and the colours if there are any.

#[deku(magic = b"GIF89a", endian = "little")]
struct Screen {
    width: u16,
    height: u16,
    #[deku(bits = 1)]
    has_colours: bool,
    #[deku(bits = 3)]
    resolution: u8,
    #[deku(bits = 1)]
    is_sorted: bool,
    #[deku(bits = 3)]
    size: u8,
    background: u8,
    ratio: u8,
    #[deku(cond = "has_colours && size == 0")]
    two_colours: Option<[u8; 6]>,
}
