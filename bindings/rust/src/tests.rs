//! Rows worked out by hand, refusals, and all values of small fields.

use super::{bits, read, read_into, write, write_into, Error, Field, Kind, Value};

const FOUR: Field = Field::new(Kind::U8).big().bits(4);

#[test]
fn rows() {
    let rows: [(&[Field], &[Value], &[u8]); 9] = [
        (
            &[FOUR, FOUR, Field::new(Kind::U16).big()],
            &[6u8.into(), 9u8.into(), 49406u16.into()],
            &[0x69, 0xC0, 0xFE],
        ),
        (&[Field::new(Kind::U16)], &[1u8.into()], &[1, 0]),
        (&[Field::new(Kind::I8)], &[(-1i8).into()], &[0xFF]),
        (
            &[Field::new(Kind::I16).big().bits(12)],
            &[(-2i16).into()],
            &[0xFF, 0xE0],
        ),
        (
            &[
                Field::new(Kind::U8).lsb().bits(4),
                Field::new(Kind::U8).lsb().bits(4),
            ],
            &[6u8.into(), 9u8.into()],
            &[0x96],
        ),
        (
            &[Field::new(Kind::U32).big().bytes(3)],
            &[0x010203u32.into()],
            &[1, 2, 3],
        ),
        (&[Field::new(Kind::U128)], &[u128::MAX.into()], &[0xFF; 16]),
        (
            &[Field::new(Kind::I128)],
            &[i128::MIN.into()],
            &[0, 0, 0, 0, 0, 0, 0, 0, 0, 0, 0, 0, 0, 0, 0, 0x80],
        ),
        (&[], &[], &[]),
    ];
    for (fields, values, bytes) in rows {
        assert_eq!(write(fields, values).as_deref(), Ok(bytes), "{fields:?}");
        let (again, taken) = read(fields, bytes).unwrap();
        assert_eq!(again, values, "{fields:?}");
        assert_eq!(bits(fields), Ok(taken), "{fields:?}");
    }
}

#[test]
fn refusals() {
    let nine = Field::new(Kind::U8).bits(9);
    let uneven = Field::new(Kind::I16).big().lsb().bits(9);
    let one = Value::from(1u8);
    assert_eq!(write(&[FOUR], &[16u8.into()]), Err(Error::InvalidParam));
    assert_eq!(
        write(&[Field::new(Kind::U8)], &[(-1i8).into()]),
        Err(Error::InvalidParam)
    );
    assert_eq!(write(&[nine], &[one]), Err(Error::InvalidParam));
    assert_eq!(write(&[FOUR], &[]), Err(Error::Miscounted));
    assert_eq!(read(&[FOUR], &[]), Err(Error::Incomplete));
    assert_eq!(read(&[nine], &[1, 2]), Err(Error::Parse));
    assert_eq!(read(&[uneven], &[1, 2]), Err(Error::InvalidParam));
    assert_eq!(
        read_into(&[FOUR], &[1], &mut [one, one]),
        Err(Error::Miscounted)
    );
    assert_eq!(
        write_into(&[Field::new(Kind::U16)], &[one], &mut [0]),
        Err(Error::Io)
    );
    assert_eq!(bits(&[nine]), Err(Error::InvalidParam));
}

#[test]
fn bytes_after_stay() {
    let mut bytes = [0xAA; 4];
    assert_eq!(write_into(&[FOUR], &[9u8.into()], &mut bytes), Ok(1));
    assert_eq!(bytes, [0x90, 0xAA, 0xAA, 0xAA]);
}

#[test]
fn all_values_of_small_fields() {
    for size in 0..=8u32 {
        for value in 0..1u32 << size {
            let fields = [Field::new(Kind::U8).big().bits(size)];
            let bytes = write(&fields, &[value.into()]).unwrap();
            let wanted = if size == 0 { 0 } else { value << (8 - size) };
            assert_eq!(bytes.first().copied().unwrap_or(0) as u32, wanted);
            assert_eq!(
                read(&fields, &bytes).unwrap().0[0].unsigned(),
                value as u128
            );

            let signed = [Field::new(Kind::I8).big().bits(size)];
            let half = if size == 0 { 0 } else { 1i64 << (size - 1) };
            let number = value as i64 - half;
            let bytes = write(&signed, &[number.into()]).unwrap();
            assert_eq!(read(&signed, &bytes).unwrap().0[0].signed(), number as i128);
        }
    }
}

#[test]
fn texts() {
    let error: Box<dyn std::error::Error> = Box::new(Error::Incomplete);
    assert_eq!(error.to_string(), "not enough data");
}
