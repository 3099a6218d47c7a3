//! The report of a station: a record of five fields, three times in another one.

/// What a sensor measured.
#[derive(DekuRead, DekuWrite)]
#[deku(endian = "big")]
pub struct Measured {
    #[deku(bits = 3)]
    pub sensor: u8,
    #[deku(bits = 5)]
    pub state: u8,
    pub value: u16,
    pub quality: u8,
    pub time: u32,
}

/// A report.
#[derive(DekuRead, DekuWrite)]
#[deku(endian = "big")]
pub struct Report {
    pub air: Measured,
    pub water: Measured,
    pub ground: Measured,
    pub checksum: u16,
}
