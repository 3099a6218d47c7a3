//! Three of the six forms of an instruction word of RISC-V, RV32I: 32 bits, the low byte first. The
//! code, in the low seven bits of the first byte, says which form a word has; it is not checked.

/// An operation on two registers (R), code 0x33.
#[deku(endian = "little", bit_order = "lsb")]
struct RiscvRegister {
    /// The code, 7 bits.
    #[deku(bits = 7)]
    code: u8,
    /// The register that is written, 5 bits.
    #[deku(bits = 5)]
    target: u8,
    /// The operation, 3 bits.
    #[deku(bits = 3)]
    function: u8,
    /// The first register that is read, 5 bits.
    #[deku(bits = 5)]
    first: u8,
    /// The second register that is read, 5 bits.
    #[deku(bits = 5)]
    second: u8,
    /// The variant of the operation, 7 bits.
    #[deku(bits = 7)]
    variant: u8,
}

/// An operation on a register and a number (I), codes 0x03, 0x0F, 0x13, 0x67 and 0x73.
#[deku(endian = "little", bit_order = "lsb")]
struct RiscvImmediate {
    /// The code, 7 bits.
    #[deku(bits = 7)]
    code: u8,
    /// The register that is written, 5 bits.
    #[deku(bits = 5)]
    target: u8,
    /// The operation, 3 bits.
    #[deku(bits = 3)]
    function: u8,
    /// The register that is read, 5 bits.
    #[deku(bits = 5)]
    base: u8,
    /// The number, 12 bits including its sign.
    #[deku(bits = 12)]
    value: i16,
}

/// A store (S), code 0x23. Its offset in bytes is `high * 32 + low`.
#[deku(endian = "little", bit_order = "lsb")]
struct RiscvStore {
    /// The code, 7 bits.
    #[deku(bits = 7)]
    code: u8,
    /// The low bits of the offset, 5 bits.
    #[deku(bits = 5)]
    low: u8,
    /// The number of bytes, as a power of two, 3 bits.
    #[deku(bits = 3)]
    function: u8,
    /// The register of the base address, 5 bits.
    #[deku(bits = 5)]
    base: u8,
    /// The register that is stored, 5 bits.
    #[deku(bits = 5)]
    source: u8,
    /// The high bits of the offset, 7 bits including its sign.
    #[deku(bits = 7)]
    high: i8,
}
