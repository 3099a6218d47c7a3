//! The records, as bench_deku, bench_records, bench_parts and shift.c have them.

#[repr(C)]
#[derive(Clone, Copy, Default, PartialEq, Debug)]
pub struct Head {
    pub source: u32,
    pub target: u32,
    pub length: u16,
    pub id: u16,
    pub fragment: u16,
    pub check: u16,
    pub version: u8,
    pub words: u8,
    pub service: u8,
    pub flags: u8,
    pub ttl: u8,
    pub protocol: u8,
}

#[repr(C)]
#[derive(Clone, Copy, Default, PartialEq, Debug)]
pub struct Quad {
    pub a: u32,
    pub b: u32,
    pub c: u32,
    pub d: u32,
}

#[repr(C)]
#[derive(Clone, Copy, Default, PartialEq, Debug)]
pub struct Signals {
    pub speed: u16,
    pub torque: u16,
    pub angle: u16,
    pub gear: u8,
    pub brake: u8,
}

#[repr(C)]
#[derive(Clone, Copy, Default, PartialEq, Debug)]
pub struct Five {
    pub c: u32,
    pub b: u16,
    pub d: u16,
    pub a: u8,
    pub e: u8,
}

#[repr(C)]
#[derive(Clone, Copy, Default, PartialEq, Debug)]
pub struct Wide {
    pub low: u64,
    pub high: u64,
}

impl From<u128> for Wide {
    fn from(number: u128) -> Wide {
        Wide { low: number as u64, high: (number >> 64) as u64 }
    }
}

impl From<Wide> for u128 {
    fn from(wide: Wide) -> u128 {
        wide.number()
    }
}

impl Wide {
    pub fn number(&self) -> u128 {
        (self.high as u128) << 64 | self.low as u128
    }
}

#[repr(C)]
#[derive(Clone, Copy, Default, PartialEq, Debug)]
pub struct UdpFields {
    pub source: u16,
    pub destination: u16,
    pub length: u16,
    pub checksum: u16,
}

#[repr(C)]
#[derive(Clone, Copy, Default, PartialEq, Debug)]
pub struct Ipv4Fields {
    pub source: u32,
    pub destination: u32,
    pub total_length: u16,
    pub identification: u16,
    pub fragment_offset: u16,
    pub checksum: u16,
    pub words: u8,
    pub service: u8,
    pub congestion: u8,
    pub flags: u8,
    pub time_to_live: u8,
    pub protocol: u8,
}

#[repr(C)]
#[derive(Clone, Copy, Default, PartialEq, Debug)]
pub struct CanFields {
    pub yaw: i32,
    pub wheel: i16,
    pub torque: i16,
    pub gear: u8,
    pub flags: u8,
    pub padding: u8,
}

#[repr(C)]
#[derive(Clone, Copy, Default, PartialEq, Debug)]
pub struct MessageFields {
    pub id: u16,
    pub tone: u16,
    pub across: i16,
    pub up: i16,
}

#[repr(C)]
#[derive(Clone, Copy, Default, PartialEq, Debug)]
pub struct QueryFields {
    pub id: u16,
    pub kind: u16,
    pub class: u16,
    pub labels: u16,
}

#[repr(C)]
#[derive(Clone, Copy, Default, PartialEq, Debug)]
pub struct ElfFields {
    pub entry: u64,
    pub segments_at: u64,
    pub sections_at: u64,
    pub flags: u32,
    pub kind: u16,
    pub machine: u16,
}

#[repr(C)]
#[derive(Clone, Copy, Default, PartialEq, Debug)]
pub struct PartFields {
    pub number: u32,
    pub short: u16,
    pub byte: u8,
    pub small: u8,
}
