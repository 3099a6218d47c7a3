//! A resource of a message of the domain name system, RFC 1035, section 3.2.1, and what the data of
//! the known kinds hold.
//!
//! ```text
//! name             labels, up to an empty one or a pointer
//! kind   16 bits   1 A, 2 NS, 5 CNAME, 6 SOA, 12 PTR, 15 MX, 16 TXT, 28 AAAA
//! class  16 bits   1 for the internet
//! life   32 bits   how long it may be kept, in seconds
//! length 16 bits   the bytes of the data
//! bytes            as many bytes
//! ```

use crate::name::Name;

/// A resource: what is known about a name.
#[deku(endian = "big")]
struct Resource {
    /// The name.
    name: Name,
    /// The kind of the data.
    kind: u16,
    /// The class of the name.
    class: u16,
    /// How long it may be kept, in seconds.
    life: u32,
    /// How many bytes the data has.
    length: u16,
    /// The data.
    #[deku(count = "length")]
    bytes: Vec<u8>,
}

/// The data of kind 15: a server that takes mail.
#[deku(endian = "big")]
struct MailServer {
    /// The server with the lowest number is tried first.
    preference: u16,
    /// Its name.
    name: Name,
}

/// The data of kind 6: who is in charge of a part of the names.
#[deku(endian = "big")]
struct Authority {
    /// The server that has the original.
    server: Name,
    /// Who is in charge, as a name: the first label is that of the mail box.
    mailbox: Name,
    /// The version of the data.
    serial: u32,
    /// When other servers ask again, in seconds.
    refresh: u32,
    /// When they ask again if there was no answer, in seconds.
    retry: u32,
    /// When they forget what they know, in seconds.
    expire: u32,
    /// How long it may be kept that there is no such name, in seconds.
    minimum: u32,
}

/// The data of the kinds 2 (NS), 5 (CNAME) and 12 (PTR): one name.
struct Target {
    /// The name.
    name: Name,
}
