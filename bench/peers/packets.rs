//! Headers of packets and frames of signals: one at a time, with what is allocated for it, and by stream.

mod bits;
mod hand;
mod stream;

use crate::bench::{both, Bench, Random};
use crate::calls;
use crate::records::*;

pub use bits::{put_udp, put_udp_joined, udp, udp_joined};
pub use hand::{udp as udp_by_hand, udp_bytes};

pub fn random_udp(random: &mut Random) -> UdpFields {
    UdpFields {
        source: random.bits(16) as u16,
        destination: random.bits(16) as u16,
        length: random.bits(16) as u16,
        checksum: random.bits(16) as u16,
    }
}

fn random_ipv4(random: &mut Random) -> Ipv4Fields {
    Ipv4Fields {
        source: random.bits(32) as u32,
        destination: random.bits(32) as u32,
        total_length: random.bits(16) as u16,
        identification: random.bits(16) as u16,
        fragment_offset: random.bits(13) as u16,
        checksum: random.bits(16) as u16,
        words: 5,
        service: random.bits(6) as u8,
        congestion: random.bits(2) as u8,
        flags: random.bits(3) as u8,
        time_to_live: random.bits(8) as u8,
        protocol: random.bits(8) as u8,
    }
}

fn random_can(random: &mut Random) -> CanFields {
    CanFields {
        yaw: (random.bits(24) << 8) as i32 >> 8,
        wheel: (random.bits(12) << 4) as i16 >> 4,
        torque: random.bits(16) as i16,
        gear: random.bits(4) as u8,
        flags: random.bits(3) as u8,
        padding: random.bits(5) as u8,
    }
}

pub fn udp_headers(bench: &mut Bench, random: &mut Random, size: usize) {
    let n = size / 8;
    let udps: Vec<UdpFields> = (0..n).map(|_| random_udp(random)).collect();
    let mut wire = vec![0; 8 * n];
    assert!(hand::udp_write(&udps, &mut wire));
    both!(bench, "UDP unpacked" and "UDP packed", size, n, udps, wire,
        read "library" calls::dk_udp_unpack, "hand" hand::udp_unpack, "bits" bits::udp_unpack, "best" bits::best::udp_unpack;
        write "library" calls::dk_udp_pack, "hand" hand::udp_pack, "bits" bits::udp_pack, "best" bits::best::udp_pack;);
    both!(bench, "UDP by stream", size, n, udps, wire,
        read "library" calls::dk_udp_read, "hand" hand::udp_read, "stream" stream::udp_read, "bits" bits::udp_read, "best" bits::best::udp_read;
        write "library" calls::dk_udp_write, "hand" hand::udp_write, "stream" stream::udp_write, "bits" bits::udp_write, "best" bits::best::udp_write;);
    bench.run("UDP into a vector", size, n, &udps, &wire, &[
        ("library", Box::new(calls::dk_udp_grow)),
        ("hand", Box::new(hand::udp_grow)),
        ("bits", Box::new(bits::udp_grow)),
        ("best", Box::new(bits::best::udp_grow)),
    ]);
    bench.run("Vec<Udp> by count read", size, n, &wire, &udps, &[
        ("library", Box::new(calls::dk_udp_counted)),
        ("hand", Box::new(hand::udp_counted)),
        ("bits", Box::new(bits::udp_counted)),
        ("best", Box::new(bits::best::udp_counted)),
    ]);
    bench.run("Vec<Udp> read and written", size, n, &wire, &wire, &[
        ("library", Box::new(move |i: &[u8], o: &mut [u8]| calls::dk_udp_counted_round(i, n, o))),
        ("hand", Box::new(move |i: &[u8], o: &mut [u8]| hand::udp_counted_round(i, n, o))),
        ("bits", Box::new(move |i: &[u8], o: &mut [u8]| bits::udp_counted_round(i, n, o))),
        ("best", Box::new(move |i: &[u8], o: &mut [u8]| bits::best::udp_counted_round(i, n, o))),
    ]);
}

pub fn ipv4_headers(bench: &mut Bench, random: &mut Random, size: usize) {
    let n = size / 20;
    let fronts: Vec<Ipv4Fields> = (0..n).map(|_| random_ipv4(random)).collect();
    let mut wire = vec![0; 20 * n];
    assert!(hand::ipv4_write(&fronts, &mut wire));
    both!(bench, "IPv4 unpacked" and "IPv4 packed", size, n, fronts, wire,
        read "library" calls::dk_ipv4_unpack, "hand" hand::ipv4_unpack, "bits" bits::ipv4_unpack, "best" bits::best::ipv4_unpack;
        write "library" calls::dk_ipv4_pack, "hand" hand::ipv4_pack, "bits" bits::ipv4_pack, "best" bits::best::ipv4_pack;);
    both!(bench, "IPv4 by stream", size, n, fronts, wire,
        read "library" calls::dk_ipv4_read, "hand" hand::ipv4_read, "stream" stream::ipv4_read, "bits" bits::ipv4_read, "best" bits::best::ipv4_read;
        write "library" calls::dk_ipv4_write, "hand" hand::ipv4_write, "stream" stream::ipv4_write, "bits" bits::ipv4_write, "best" bits::best::ipv4_write;);
}

pub fn can_frames(bench: &mut Bench, random: &mut Random, size: usize) {
    let n = size / 8;
    let cars: Vec<CanFields> = (0..n).map(|_| random_can(random)).collect();
    let mut wire = vec![0; 8 * n];
    assert!(hand::can_write(&cars, &mut wire));
    both!(bench, "CAN unpacked" and "CAN packed", size, n, cars, wire,
        read "library" calls::dk_can_unpack, "hand" hand::can_unpack, "bits" bits::can_unpack, "best" bits::best::can_unpack;
        write "library" calls::dk_can_pack, "hand" hand::can_pack, "bits" bits::can_pack, "best" bits::best::can_pack;);
    both!(bench, "CAN by stream", size, n, cars, wire,
        read "library" calls::dk_can_read, "hand" hand::can_read, "bits" bits::can_read, "best" bits::best::can_read;
        write "library" calls::dk_can_write, "hand" hand::can_write, "bits" bits::can_write, "best" bits::best::can_write;);
}
