//! A message that asks one question.

use crate::header::Header;
use crate::question::Question;

/// A header, and a question after it.
struct Query {
    /// The header.
    header: Header,
    /// The question.
    question: Question,
}
