//! The header of a message of the domain name system, RFC 1035, with the bits of RFC 4035.
//!
//! ```text
//! id                   16 bits
//! is_answer             1 bit
//! opcode                4 bits   0: the usual question
//! is_authoritative      1 bit
//! is_cut                1 bit
//! wants_recursion       1 bit
//! has_recursion         1 bit
//! reserved              1 bit
//! is_checked            1 bit
//! may_be_unchecked      1 bit
//! outcome               4 bits   0: no error, 3: there is no such name
//! questions            16 bits   and then as many of each
//! answers              16 bits
//! authorities          16 bits
//! additionals          16 bits
//! ```

/// The header of a message.
#[deku(endian = "big")]
struct Header {
    /// What an answer repeats.
    id: u16,
    /// Whether it is an answer.
    #[deku(bits = 1)]
    is_answer: bool,
    /// The kind of the question, 4 bits.
    #[deku(bits = 4)]
    opcode: u8,
    /// Whether the server is in charge of the name.
    #[deku(bits = 1)]
    is_authoritative: bool,
    /// Whether the message was too long, and is cut.
    #[deku(bits = 1)]
    is_cut: bool,
    /// Whether the server is to ask others.
    #[deku(bits = 1)]
    wants_recursion: bool,
    /// Whether the server asks others.
    #[deku(bits = 1)]
    has_recursion: bool,
    /// Reserved.
    #[deku(bits = 1)]
    reserved: bool,
    /// Whether the server has checked the signatures.
    #[deku(bits = 1)]
    is_checked: bool,
    /// Whether unchecked data are wanted.
    #[deku(bits = 1)]
    may_be_unchecked: bool,
    /// The result, 4 bits.
    #[deku(bits = 4)]
    outcome: u8,
    /// How many questions follow.
    questions: u16,
    /// How many answers follow these.
    answers: u16,
    /// How many records of name servers follow these.
    authorities: u16,
    /// How many more records follow these.
    additionals: u16,
}

/// One text of the data of kind 16.
#[deku(endian = "big")]
struct Text {
    /// How many bytes it has.
    length: u8,
    /// The bytes.
    #[deku(count = "length")]
    bytes: Vec<u8>,
}
