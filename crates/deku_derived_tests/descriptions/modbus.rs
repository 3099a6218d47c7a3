//! A request of Modbus over TCP: a header, and a function that a byte chooses.

#[deku(endian = "big")]
struct Request {
    transaction: u16,
    #[deku(assert_eq = "0")]
    protocol: u16,
    length: u16,
    unit: u8,
    function: Function,
}

#[deku(id_type = "u8", endian = "big")]
enum Function {
    #[deku(id = 1)]
    ReadCoils { from: u16, count: u16 },
    #[deku(id = 3)]
    ReadRegisters { from: u16, count: u16 },
    #[deku(id = 5)]
    WriteCoil { at: u16, value: u16 },
    #[deku(id = 6)]
    WriteRegister { at: u16, value: u16 },
    #[deku(id_pat = "0x80..=0xFF")]
    Failed { code: u8, cause: u8 },
}
