//! The header of a packet of RTP with its sources, RFC 3550.
//!
//! ```text
//! version        2 bits   2
//! padding        1 bit    the last byte says how many bytes at the end do not count
//! extension      1 bit    a header extension follows
//! source_count   4 bits
//! marker         1 bit
//! payload_type   7 bits
//! sequence      16 bits
//! timestamp     32 bits
//! source        32 bits
//! contributing  32 bits each
//! ```

/// The header of a packet.
#[deku(endian = "big")]
struct Rtp {
    /// 2, of 2 bits.
    #[deku(bits = 2, assert_eq = "2")]
    version: u8,
    /// Whether bytes at the end do not count.
    #[deku(bits = 1)]
    padding: bool,
    /// Whether a header extension follows.
    #[deku(bits = 1)]
    extension: bool,
    /// How many sources contribute, 4 bits.
    #[deku(bits = 4)]
    source_count: u8,
    /// What the profile says, as the end of a picture.
    #[deku(bits = 1)]
    marker: bool,
    /// What the payload is, 7 bits.
    #[deku(bits = 7)]
    payload_type: u8,
    /// One more for each packet.
    sequence: u16,
    /// When the payload was sampled.
    timestamp: u32,
    /// Who sends.
    source: u32,
    /// Whose samples are mixed into it.
    #[deku(count = "source_count")]
    contributing: Vec<u32>,
}
