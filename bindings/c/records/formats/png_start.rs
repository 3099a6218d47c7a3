//! The beginning of a PNG file: its signature and the chunk IHDR.
#[deku(endian = "big", magic = b"\x89PNG\r\n\x1a\n")]
struct PngStart {
    /// In pixels.
    #[deku(magic = b"\x00\x00\x00\x0dIHDR")]
    width: u32,
    /// In pixels.
    height: u32,
    /// Bits per sample.
    depth: u8,
    /// What the samples of a pixel are.
    colour: u8,
    /// The compression method.
    compression: u8,
    /// The filter method, which is used before the compression.
    filter: u8,
    /// The order of the lines.
    interlace: u8,
    /// The checksum of the chunk's type and data.
    crc: u32,
}
