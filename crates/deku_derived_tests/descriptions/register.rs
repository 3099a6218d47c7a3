//! An instruction whose code of seven bits chooses a form, low bits first.

#[deku(bit_order = "lsb", endian = "little")]
struct Immediate {
    #[deku(bits = 5)]
    target: u8,
    #[deku(bits = 3)]
    function: u8,
    #[deku(bits = 5)]
    base: u8,
    #[deku(bits = 12)]
    value: i16,
}

#[deku(bit_order = "lsb", endian = "little")]
struct Upper {
    #[deku(bits = 5)]
    target: u8,
    #[deku(bits = 20)]
    value: i32,
}

#[deku(id_type = "u8", bits = 7, bit_order = "lsb", endian = "little")]
enum Instruction {
    #[deku(id = 0x03)]
    Load(Immediate),
    #[deku(id = 0x13)]
    Operate(Immediate),
    #[deku(id = 0x17)]
    AddUpper(Upper),
    #[deku(id = 0x37)]
    LoadUpper(Upper),
}
