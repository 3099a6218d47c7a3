//! Headers as lists of fields by the bindings to Rust, a call for each header.

#[path = "../../bindings/rust/src/lib.rs"]
mod dishkaru;

use crate::bench::{both, Bench, Random};
use crate::records::Head;
use crate::{calls, random_heads};
use dishkaru::{read_into, write_into, Field, Kind, Value};

const BYTE: Field = Field::new(Kind::U8).big();
const WORD: Field = Field::new(Kind::U16).big();
const LONG: Field = Field::new(Kind::U32).big();
const FIELDS: [Field; 12] = [
    BYTE.bits(4),
    BYTE.bits(4),
    BYTE,
    WORD,
    WORD,
    BYTE.bits(3),
    WORD.bits(13),
    BYTE,
    BYTE,
    WORD,
    LONG,
    LONG,
];

fn head_of(values: &[Value; 12]) -> Head {
    let low = |place: usize| values[place].unsigned() as u32;
    Head {
        version: low(0) as u8,
        words: low(1) as u8,
        service: low(2) as u8,
        length: low(3) as u16,
        id: low(4) as u16,
        flags: low(5) as u8,
        fragment: low(6) as u16,
        ttl: low(7) as u8,
        protocol: low(8) as u8,
        check: low(9) as u16,
        source: low(10),
        target: low(11),
    }
}

fn values_of(head: &Head) -> [Value; 12] {
    [
        head.version.into(),
        head.words.into(),
        head.service.into(),
        head.length.into(),
        head.id.into(),
        head.flags.into(),
        head.fragment.into(),
        head.ttl.into(),
        head.protocol.into(),
        head.check.into(),
        head.source.into(),
        head.target.into(),
    ]
}

fn read(bytes: &[u8], heads: &mut [Head]) -> bool {
    let mut values = [Value::default(); 12];
    bytes.chunks_exact(20).zip(heads).all(|(bytes, head)| {
        let is_read = read_into(&FIELDS, bytes, &mut values).is_ok();
        *head = head_of(&values);
        is_read
    })
}

fn write(heads: &[Head], bytes: &mut [u8]) -> bool {
    bytes
        .chunks_exact_mut(20)
        .zip(heads)
        .all(|(bytes, head)| write_into(&FIELDS, &values_of(head), bytes).is_ok())
}

/// A time is that of a header, not of a field.
pub fn lists(bench: &mut Bench, random: &mut Random, size: usize) {
    let (heads, wire) = random_heads(random, size / 20);
    both!(bench, "field list, a call each", size, size / 20, heads, wire,
        read "library" calls::dk_lone_fields_read, "rust" read;
        write "library" calls::dk_lone_fields_write, "rust" write;);
}
