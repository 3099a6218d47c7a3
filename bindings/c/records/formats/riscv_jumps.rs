//! The other three forms of an instruction word of RISC-V, RV32I: branches, jumps and upper halves.

/// A branch (B), code 0x63. Its offset in units of two bytes is
/// `sign * 2048 + top * 1024 + middle * 16 + low`.
#[deku(endian = "little", bit_order = "lsb")]
struct RiscvBranch {
    /// The code, 7 bits.
    #[deku(bits = 7)]
    code: u8,
    /// Bit 10 of the offset.
    #[deku(bits = 1)]
    top: u8,
    /// The lowest bits of the offset, 4 bits.
    #[deku(bits = 4)]
    low: u8,
    /// The condition, 3 bits.
    #[deku(bits = 3)]
    function: u8,
    /// The first register that is compared, 5 bits.
    #[deku(bits = 5)]
    first: u8,
    /// The second register that is compared, 5 bits.
    #[deku(bits = 5)]
    second: u8,
    /// The bits of the offset above the lowest four, 6 bits.
    #[deku(bits = 6)]
    middle: u8,
    /// The sign of the offset: 0 or -1.
    #[deku(bits = 1)]
    sign: i8,
}

/// The high bits of a number (U), codes 0x17 and 0x37.
#[deku(endian = "little", bit_order = "lsb")]
struct RiscvUpper {
    /// The code, 7 bits.
    #[deku(bits = 7)]
    code: u8,
    /// The register that is written, 5 bits.
    #[deku(bits = 5)]
    target: u8,
    /// The number divided by 4096, 20 bits including its sign.
    #[deku(bits = 20)]
    value: i32,
}

/// A jump (J), code 0x6F. Its offset in units of two bytes is
/// `sign * 524288 + high * 2048 + middle * 1024 + low`.
#[deku(endian = "little", bit_order = "lsb")]
struct RiscvJump {
    /// The code, 7 bits.
    #[deku(bits = 7)]
    code: u8,
    /// The register to which the address after the jump is written, 5 bits.
    #[deku(bits = 5)]
    target: u8,
    /// The bits of the offset above the lowest eleven, 8 bits.
    #[deku(bits = 8)]
    high: u8,
    /// Bit 10 of the offset.
    #[deku(bits = 1)]
    middle: u8,
    /// The lowest bits of the offset, 10 bits.
    #[deku(bits = 10)]
    low: u16,
    /// The sign of the offset: 0 or -1.
    #[deku(bits = 1)]
    sign: i8,
}
