//! Messages of MIDI: a kind and a channel, and one or two numbers.

#[deku(id_type = "u8", bits = 4, endian = "big")]
enum Midi {
    #[deku(id = 8)]
    Off {
        #[deku(bits = 4)]
        channel: u8,
        note: u8,
        speed: u8,
    },
    #[deku(id = 9)]
    On {
        #[deku(bits = 4)]
        channel: u8,
        note: u8,
        speed: u8,
    },
    #[deku(id = 11)]
    Control(#[deku(bits = 4)] u8, u8, u8),
    #[deku(id = 12)]
    Program(#[deku(bits = 4)] u8, u8),
    #[deku(id = 14)]
    Bend(#[deku(bits = 4)] u8, u8, u8),
}
