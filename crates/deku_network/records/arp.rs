//! The address resolution protocol for IPv4 over Ethernet, RFC 826.
//!
//! ```text
//! hardware          16 bits   1: Ethernet
//! protocol          16 bits   0800: IPv4
//! hardware_length    8 bits   6 bytes
//! protocol_length    8 bits   4 bytes
//! operation         16 bits   1 a question, 2 its answer
//! sender_hardware   48 bits
//! sender            32 bits
//! target_hardware   48 bits   zero in a question
//! target            32 bits
//! ```

/// A question who has an address, or the answer.
#[deku(endian = "big")]
struct Arp {
    /// The kind of hardware: 1, Ethernet.
    #[deku(assert_eq = "1")]
    hardware: u16,
    /// The kind of address: 0x0800, IPv4.
    #[deku(assert_eq = "0x0800")]
    protocol: u16,
    /// The bytes of a hardware address: 6.
    #[deku(assert_eq = "6")]
    hardware_length: u8,
    /// The bytes of an address: 4.
    #[deku(assert_eq = "4")]
    protocol_length: u8,
    /// 1 is a question, 2 its answer.
    operation: u16,
    /// The hardware address of the sender.
    sender_hardware: [u8; 6],
    /// The address of the sender.
    sender: Ipv4Addr,
    /// The hardware address of the target, or zeros in a question.
    target_hardware: [u8; 6],
    /// The address that is asked for, or that of who asked.
    target: Ipv4Addr,
}
