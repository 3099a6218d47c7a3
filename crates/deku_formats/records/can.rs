//! The signals of a CAN data frame, as in a DBC file: "Intel" signals, which go from the low bits
//! up, and "Motorola" signals, whose high byte comes first.
//!
//! ```text
//! BO_ 291 Chassis: 8 ECU
//!  SG_ wheel  :  0|12@1-      Intel, signed: byte 0, and the low half of byte 1
//!  SG_ gear   : 12|4@1+       Intel: the high half of byte 1
//!  SG_ torque : 23|16@0-      Motorola, signed: bytes 2 and 3
//!  SG_ flags  : 32|3@1+       Intel: the low three bits of byte 4; the other five are padding
//!  SG_ yaw    : 47|24@0-      Motorola, signed: bytes 5, 6 and 7
//! ```

/// The signals.
#[deku(endian = "little", bit_order = "lsb")]
struct Chassis {
    /// The angle of the wheel, 12 bits.
    #[deku(bits = 12)]
    wheel: i16,
    /// The gear, 4 bits.
    #[deku(bits = 4)]
    gear: u8,
    /// The torque, 16 bits.
    #[deku(endian = "big")]
    torque: i16,
    /// Three flags.
    #[deku(bits = 3)]
    flags: u8,
    /// Five bits without a meaning.
    #[deku(bits = 5)]
    padding: u8,
    /// The yaw rate, 24 bits.
    #[deku(bytes = 3, endian = "big")]
    yaw: i32,
}
