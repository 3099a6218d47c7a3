//! A request of TFTP, RFC 1350, for a file: two texts that end with a zero.

use std::ffi::CString;

#[deku(endian = "big")]
struct Transfer {
    #[deku(assert = "code == 1 || code == 2")]
    code: u16,
    name: CString,
    mode: CString,
}
