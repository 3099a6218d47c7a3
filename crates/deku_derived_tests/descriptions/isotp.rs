//! Frames of ISO 15765-2, which carry messages over a CAN bus.

#[deku(id_type = "u8", bits = 4, endian = "big")]
enum Frame {
    /// A whole message.
    #[deku(id = 0)]
    Single {
        #[deku(bits = 4)]
        length: u8,
    },
    /// The first part of one.
    #[deku(id = 1)]
    First {
        #[deku(bits = 12)]
        length: u16,
    },
    /// The next part.
    #[deku(id = 2)]
    Next {
        #[deku(bits = 4)]
        index: u8,
    },
    /// Whether and how fast more may come.
    #[deku(id = 3)]
    Flow {
        #[deku(bits = 4)]
        status: u8,
        block: u8,
        separation: u8,
    },
}
