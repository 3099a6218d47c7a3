//! A question, as in RFC 1035, section 4.1.2.
//!
//! ```text
//! name   labels, of which the empty one is the last
//! kind   16 bits  what is asked about the name: 1 for its address
//! class  16 bits  1 for the internet
//! ```

use crate::label::Name;

/// A question.
#[deku(endian = "big")]
struct Question {
    /// The name: its labels, with the empty one that ends it.
    name: Name,
    /// What is asked about it.
    kind: u16,
    /// The class of the name.
    class: u16,
}
