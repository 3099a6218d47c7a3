//! The address resolution protocol for IPv4 over Ethernet, RFC 826.

/// A question who has an address, or the answer. It begins with the constants of Ethernet and IPv4:
/// 00 01 08 00 06 04.
#[deku(endian = "big", magic = b"\x00\x01\x08\x00\x06\x04")]
struct Arp {
    /// 1 is a question, 2 its answer.
    operation: u16,
    /// The Ethernet address of the sender.
    sender_hardware: [u8; 6],
    /// The IPv4 address of the sender.
    sender: u32,
    /// The Ethernet address of the target, or zeros in a question.
    target_hardware: [u8; 6],
    /// The IPv4 address that is asked for, or that of who asked.
    target: u32,
}
