//! The header of a message, as in RFC 1035, section 4.1.1.
//!
//! ```text
//!  0  1           4  5  6  7  8  9          11 12          15
//! +--+-----------+--+--+--+--+-----------+-------------+
//! |                    identification                   |
//! |QR|  opcode   |AA|TC|RD|RA|  reserved | response code|
//! |                      questions                      |
//! |                       answers                       |
//! |                     authorities                     |
//! |                     additionals                     |
//! +-----------------------------------------------------+
//! ```

/// The header of a message.
#[deku(endian = "big")]
struct Header {
    /// The identification, which the answer to a question repeats.
    identification: u16,
    /// 0 for a question, 1 for an answer, 1 bit.
    #[deku(bits = 1)]
    response: u8,
    /// The kind of the question, 4 bits; 0 is the usual one.
    #[deku(bits = 4)]
    opcode: u8,
    /// Whether the answer is authoritative, 1 bit.
    #[deku(bits = 1)]
    authoritative: u8,
    /// Whether the message was truncated, 1 bit.
    #[deku(bits = 1)]
    truncated: u8,
    /// Whether recursion is wanted, 1 bit.
    #[deku(bits = 1)]
    recursion_desired: u8,
    /// Whether recursion is available, 1 bit.
    #[deku(bits = 1)]
    recursion_available: u8,
    /// Reserved for later use, 3 bits.
    #[deku(bits = 3)]
    reserved: u8,
    /// The result of the question, 4 bits; 0 is no error.
    #[deku(bits = 4)]
    response_code: u8,
    /// How many questions follow.
    questions: u16,
    /// How many answers follow.
    answers: u16,
    /// How many authority records follow.
    authorities: u16,
    /// How many additional records follow.
    additionals: u16,
}
