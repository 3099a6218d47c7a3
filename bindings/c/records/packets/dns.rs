//! The header of a DNS message, RFC 1035.
#[deku(endian = "big")]
struct DnsHeader {
    /// The identification, which the answer to a question repeats.
    identification: u16,
    /// 0 for a question, 1 for an answer.
    #[deku(bits = 1)]
    response: u8,
    /// The kind of the question; 0 is the usual one.
    #[deku(bits = 4)]
    opcode: u8,
    /// Whether the answer is authoritative.
    #[deku(bits = 1)]
    authoritative: u8,
    /// Whether the message was truncated.
    #[deku(bits = 1)]
    truncated: u8,
    /// Whether recursion is wanted.
    #[deku(bits = 1)]
    recursion_desired: u8,
    /// Whether recursion is available.
    #[deku(bits = 1)]
    recursion_available: u8,
    /// Reserved for later use.
    #[deku(bits = 3)]
    reserved: u8,
    /// The result of the question; 0 is no error.
    #[deku(bits = 4)]
    response_code: u8,
    /// How many questions follow.
    questions: u16,
    /// How many answers follow.
    answers: u16,
    /// How many authority records follow.
    authorities: u16,
    /// How many additional records follow.
    additionals: u16,
}
