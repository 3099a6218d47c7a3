use dishkaru::{read, Error, Field, Kind};

fn main() -> Result<(), Error> {
    let fields = [
        Field::new(Kind::U8).big().bits(4), // version
        Field::new(Kind::U8).big().bits(4), // length of the header, in words
        Field::new(Kind::U8),               // service
        Field::new(Kind::U16).big(),        // length of the packet, in bytes
    ];
    let (values, _bits) = read(&fields, &[0x45, 0x00, 0x00, 0x3C])?;
    println!("version {}, {} bytes", values[0].unsigned(), values[3].unsigned());
    Ok(())
}
