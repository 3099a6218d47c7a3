//! A question of a message of the domain name system, RFC 1035, section 4.1.2.
//!
//! ```text
//! name             labels, up to an empty one or a pointer
//! kind   16 bits   what is asked about the name, as the kind of a resource
//! class  16 bits   1 for the internet
//! ```

use crate::name::Name;

/// A question.
#[deku(endian = "big")]
struct Question {
    /// The name that is asked about.
    name: Name,
    /// What is asked about it.
    kind: u16,
    /// The class of the name.
    class: u16,
}
