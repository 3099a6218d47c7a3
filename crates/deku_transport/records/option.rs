//! An option of a TCP segment, RFC 9293, and what the known kinds hold: RFC 7323 and RFC 2018.
//!
//! ```text
//! kind      8 bits   0 ends the options, 1 does nothing: these are single bytes;
//!                    2 the largest segment, 3 the scale of the window, 4 selective
//!                    acknowledgments are permitted, 5 such ones, 8 times
//! length    8 bits   the bytes of the option, with the kind and the length
//! data      as many bytes as are left
//! ```

/// An option of any kind.
#[deku(endian = "big")]
struct TcpOption {
    /// What it says. 0 and 1 are single bytes.
    kind: u8,
    /// What follows the kind.
    #[deku(cond = "kind > 1")]
    tail: Option<Tail>,
}

/// The length of an option, and its data.
#[deku(endian = "big")]
struct Tail {
    /// The bytes of the option: two more than its data has.
    length: u8,
    /// What the kind says.
    #[deku(count = "length - 2")]
    bytes: Vec<u8>,
}

/// The data of kind 2.
#[deku(endian = "big")]
struct LargestSegment {
    /// The most bytes of a segment that the sender can take.
    size: u16,
}

/// The data of kind 3.
#[deku(endian = "big")]
struct WindowScale {
    /// By how many bits the window is shifted to the left.
    shift: u8,
}

/// One block of kind 5: bytes that came out of order.
#[deku(endian = "big")]
struct Block {
    /// The number of the first byte.
    left: u32,
    /// The number after that of the last byte.
    right: u32,
}

/// The data of kind 8.
#[deku(endian = "big")]
struct Times {
    /// The clock of the sender.
    value: u32,
    /// The newest clock that came from the other side.
    echo: u32,
}
