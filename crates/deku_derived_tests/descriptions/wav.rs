//! The first chunks of a WAV file.

#[deku(endian = "little", magic = b"RIFF")]
struct Wav {
    size: u32,
    #[deku(magic = b"WAVEfmt ")]
    format_size: u32,
    format: u16,
    channels: u16,
    rate: u32,
    byte_rate: u32,
    block: u16,
    bits_per_sample: u16,
}
