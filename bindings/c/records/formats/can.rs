//! The signals of a CAN data frame: low bits first, and some with the high byte first.
#[deku(endian = "little", bit_order = "lsb")]
struct Chassis {
    /// The angle of the wheel.
    #[deku(bits = 12)]
    wheel: i16,
    /// The gear.
    #[deku(bits = 4)]
    gear: u8,
    /// The torque.
    #[deku(endian = "big")]
    torque: i16,
    /// Three flags.
    #[deku(bits = 3)]
    flags: u8,
    /// Five bits without a meaning.
    #[deku(bits = 5)]
    padding: u8,
    /// The yaw rate.
    #[deku(bytes = 3, endian = "big")]
    yaw: i32,
}
