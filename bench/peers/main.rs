//! Measures reading and writing by the library and by its peers, in turns, in processor time of this thread.
//!
//! Arguments: `quick`, `full`, `long` or `profile` (the library alone, half a second for each work), the file that each measured number is written to,
//! and optionally the beginning of the names of the works that are wanted. `file` begins the arguments of a process that reads or writes one file.

mod bench;
#[cfg(side = "deku")]
mod bindings;
mod calls;
mod crates;
mod files;
mod hand;
mod kit;
mod lists;
mod packets;
mod parts;
mod pieces;
mod records;
mod slices;
mod widths;

use bench::{both, growth, Bench, Gauge, Mode, Random, PEERS};
use records::*;
use std::fmt::Write as _;

type Works = fn(&mut Bench, &mut Random, usize);

fn random_head(random: &mut Random) -> Head {
    Head {
        source: random.bits(32) as u32,
        target: random.bits(32) as u32,
        length: random.bits(16) as u16,
        id: random.bits(16) as u16,
        fragment: random.bits(13) as u16,
        check: random.bits(16) as u16,
        version: random.bits(4) as u8,
        words: random.bits(4) as u8,
        service: random.bits(8) as u8,
        flags: random.bits(3) as u8,
        ttl: random.bits(8) as u8,
        protocol: random.bits(8) as u8,
    }
}

fn random_heads(random: &mut Random, n: usize) -> (Vec<Head>, Vec<u8>) {
    let heads: Vec<Head> = (0..n).map(|_| random_head(random)).collect();
    let mut wire = vec![0; 20 * n];
    assert!(hand::heads_write(&heads, &mut wire));
    (heads, wire)
}

fn sum_of(head: &Head) -> u64 {
    let bytes = [head.version, head.words, head.service, head.flags, head.ttl, head.protocol];
    let words = [head.length, head.id, head.fragment, head.check];
    bytes.map(u64::from).iter().sum::<u64>() + words.map(u64::from).iter().sum::<u64>()
        + u64::from(head.source) + u64::from(head.target)
}

fn headers(bench: &mut Bench, random: &mut Random, size: usize) {
    let n = size / 20;
    let (heads, wire) = random_heads(random, n);
    both!(bench, "headers", size, 12 * n, heads, wire,
        read "library" calls::dk_heads_read, "hand" hand::heads_read, "kit" kit::heads_read,
            "bits" crates::bits_heads_read, "best" crates::best_heads_read, "c" calls::c_heads_read;
        write "library" calls::dk_heads_write, "hand" hand::heads_write, "kit" kit::heads_write,
            "bits" crates::bits_heads_write, "best" crates::best_heads_write, "c" calls::c_heads_write;);
    both!(bench, "headers, inlined", size, 12 * n, heads, wire,
        read "library" calls::dk_inlined_heads_read, "hand" hand::heads_read, "kit" kit::heads_read,
            "bits" crates::bits_heads_read, "best" crates::best_heads_read;
        write "library" calls::dk_inlined_heads_write, "hand" hand::heads_write, "kit" kit::heads_write,
            "bits" crates::bits_heads_write, "best" crates::best_heads_write;);
    both!(bench, "headers as field list", size, 12 * n, heads, wire,
        read "library" calls::dk_fields_read, "hand" hand::heads_read, "kit" kit::heads_read,
            "bits" crates::bits_heads_read, "best" crates::best_heads_read;
        write "library" calls::dk_fields_write, "hand" hand::heads_write, "kit" kit::heads_write,
            "bits" crates::bits_heads_write, "best" crates::best_heads_write;);
    both!(bench, "headers as plan", size, 12 * n, heads, wire,
        read "library" calls::dk_plan_read, "hand" hand::heads_read, "kit" kit::heads_read,
            "bits" crates::bits_heads_read, "best" crates::best_heads_read;
        write "library" calls::dk_plan_write, "hand" hand::heads_write, "kit" kit::heads_write,
            "bits" crates::bits_heads_write, "best" crates::best_heads_write;);
    assert!(lists::refuses_signs());
    both!(bench, "field list, kit by list", size, 12 * n, heads, wire,
        read "library" calls::dk_fields_read, "kit" lists::heads_read;
        write "library" calls::dk_fields_write, "kit" lists::heads_write;);
    let sums: Vec<u64> = heads.iter().map(sum_of).collect();
    bench.run("sums of headers, by columns", size, 12 * n, &wire[..], &sums[..],
        &[("library", Box::new(calls::dk_columns_sum)), ("rows", Box::new(calls::dk_rows_sum))]);
    both!(bench, "plan, kit by list", size, 12 * n, heads, wire,
        read "library" calls::dk_plan_read, "kit" lists::heads_read;
        write "library" calls::dk_plan_write, "kit" lists::heads_write;);
    both!(bench, "headers, a slice each", size, 12 * n, heads, wire,
        read "library" calls::dk_lone_heads_read, "hand" hand::heads_read, "kit" kit::lone_heads_read,
            "bits" crates::bits_lone_heads_read, "best" crates::best_lone_heads_read;
        write "library" calls::dk_lone_heads_write, "hand" hand::heads_write, "kit" kit::lone_heads_write,
            "bits" crates::bits_lone_heads_write, "best" crates::best_lone_heads_write;);
}

fn quads(bench: &mut Bench, random: &mut Random, size: usize) {
    let n = size / 16;
    let quads: Vec<Quad> = (0..n)
        .map(|_| Quad {
            a: random.bits(32) as u32,
            b: random.bits(32) as u32,
            c: random.bits(32) as u32,
            d: random.bits(32) as u32,
        })
        .collect();
    let mut wire = vec![0; 16 * n];
    assert!(hand::quads_write(&quads, &mut wire));
    both!(bench, "u32 little", size, 4 * n, quads, wire,
        read "library" calls::dk_quads_read, "hand" hand::quads_read, "kit" kit::quads_read,
            "bits" crates::bits_quads_read, "best" crates::best_quads_read, "bytes" crates::bytes_quads_read;
        write "library" calls::dk_quads_write, "hand" hand::quads_write, "kit" kit::quads_write,
            "bits" crates::bits_quads_write, "best" crates::best_quads_write, "bytes" crates::bytes_quads_write;);
}

fn signals(bench: &mut Bench, random: &mut Random, size: usize) {
    let n = size * 8 / 42;
    let signals: Vec<Signals> = (0..n)
        .map(|_| Signals {
            speed: random.bits(12) as u16,
            torque: random.bits(16) as u16,
            angle: random.bits(10) as u16,
            gear: random.bits(3) as u8,
            brake: random.bits(1) as u8,
        })
        .collect();
    let mut wire = vec![0; (42 * n).div_ceil(8)];
    assert!(hand::signals_write(&signals, &mut wire));
    both!(bench, "signals Lsb0", size, 5 * n, signals, wire,
        read "library" calls::dk_signals_read, "hand" hand::signals_read, "kit" kit::signals_read,
            "bits" crates::bits_signals_read, "best" crates::best_signals_read, "c" calls::c_signals_read;
        write "library" calls::dk_signals_write, "hand" hand::signals_write, "kit" kit::signals_write,
            "bits" crates::bits_signals_write, "best" crates::best_signals_write, "c" calls::c_signals_write;);
}

fn samples(bench: &mut Bench, random: &mut Random, size: usize) {
    let n = size / 5 * 4;
    let samples: Vec<u16> = (0..n).map(|_| random.bits(10) as u16).collect();
    let mut wire = vec![0; n / 4 * 5];
    assert!(hand::samples_write(&samples, &mut wire));
    both!(bench, "samples of 10 bits", size, n, samples, wire,
        read "library" calls::dk_samples_read, "hand" hand::samples_read, "kit" kit::samples_read,
            "bits" crates::bits_samples_read, "best" crates::best_samples_read, "c" calls::c_samples_read;
        write "library" calls::dk_samples_write, "hand" hand::samples_write, "kit" kit::samples_write,
            "bits" crates::bits_samples_write, "best" crates::best_samples_write, "c" calls::c_samples_write;);
    let signed: Vec<i16> = samples.iter().map(|v| (v << 6) as i16 >> 6).collect();
    both!(bench, "signed samples of 10 bits", size, n, signed, wire,
        read "library" calls::dk_signed_samples_read, "kit" kit::signed_samples_read, "bits" crates::bits_signed_samples_read, "best" crates::best_signed_samples_read;
        write "library" calls::dk_signed_samples_write, "kit" kit::signed_samples_write, "bits" crates::bits_signed_samples_write, "best" crates::best_signed_samples_write;);
}

fn wide(bench: &mut Bench, random: &mut Random, size: usize) {
    let n = size / 16;
    let mut word = || (0..4).fold(0u128, |all, _| all << 32 | random.bits(32) as u128);
    let words: Vec<Wide> = (0..n).map(|_| word().into()).collect();
    let wire: Vec<u8> = words.iter().flat_map(|v| v.number().to_be_bytes()).collect();
    both!(bench, "u128 big", size, n, words, wire,
        read "library" calls::dk_words_read, "kit" kit::words_read, "bits" crates::bits_words_read, "best" crates::best_words_read;
        write "library" calls::dk_words_write, "kit" kit::words_write, "bits" crates::bits_words_write, "best" crates::best_words_write;);
    let n = size / 25 * 2;
    let hundreds: Vec<Wide> = (0..n).map(|_| (word() >> 28).into()).collect();
    let mut wire = vec![0; n / 2 * 25];
    assert!(kit::hundreds_write(&hundreds, &mut wire));
    both!(bench, "fields of 100 bits", size, n, hundreds, wire,
        read "library" calls::dk_hundreds_read, "kit" kit::hundreds_read, "bits" crates::bits_hundreds_read, "best" crates::best_hundreds_read;
        write "library" calls::dk_hundreds_write, "kit" kit::hundreds_write, "bits" crates::bits_hundreds_write, "best" crates::best_hundreds_write;);
}

fn runs_of(bench: &mut Bench, plain: &[u8], text: &str, run: usize) {
    let size = plain.len();
    bench.run(&format!("runs of {text} read"), size, size, plain, plain, &[
        ("library", Box::new(move |i: &[u8], o: &mut [u8]| calls::dk_runs_read(i, 0, run, o))),
        ("hand", Box::new(move |i: &[u8], o: &mut [u8]| hand::runs_copy(i, run, o))),
        ("kit", Box::new(move |i: &[u8], o: &mut [u8]| kit::runs_read(i, 0, run, o))),
        ("bits", Box::new(move |i: &[u8], o: &mut [u8]| crates::bits_runs_read(i, 0, run, o))),
    ]);
    bench.run(&format!("ReadExact of {text}"), size, size, plain, plain, &[
        ("library", Box::new(move |i: &[u8], o: &mut [u8]| calls::dk_exact_read(i, run, o))),
        ("hand", Box::new(move |i: &[u8], o: &mut [u8]| hand::runs_copy(i, run, o))),
        ("kit", Box::new(move |i: &[u8], o: &mut [u8]| kit::runs_owned(i, run, o))),
    ]);
    bench.run(&format!("runs of {text} write"), size, size, plain, plain, &[
        ("library", Box::new(move |i: &[u8], o: &mut [u8]| calls::dk_runs_write(i, 0, run, o))),
        ("hand", Box::new(move |i: &[u8], o: &mut [u8]| hand::runs_copy(i, run, o))),
        ("kit", Box::new(move |i: &[u8], o: &mut [u8]| kit::runs_write(i, 0, run, o))),
        ("bits", Box::new(move |i: &[u8], o: &mut [u8]| crates::bits_runs_write(i, 0, run, o))),
        ("bytes", Box::new(move |i: &[u8], o: &mut [u8]| crates::bytes_runs_write(i, run, o))),
    ]);
}

fn runs(bench: &mut Bench, random: &mut Random, size: usize) {
    let plain: Vec<u8> = (0..size).map(|_| random.bits(8) as u8).collect();
    for (text, run) in [("64", 64usize), ("4096", 4096), ("1 MiB", 1 << 20)] {
        if run <= size {
            runs_of(bench, &plain, text, run);
        }
    }
    let mut shifted = vec![0; size + 1];
    assert!(hand::runs_write_shifted(&plain, &mut shifted));
    let run = 64;
    bench.run("runs after 4 bits read", size, size, &shifted, &plain, &[
        ("library", Box::new(move |i: &[u8], o: &mut [u8]| calls::dk_runs_read(i, 4, run, o))),
        ("hand", Box::new(hand::runs_shifted)),
        ("kit", Box::new(move |i: &[u8], o: &mut [u8]| kit::runs_read(i, 4, run, o))),
        ("bits", Box::new(move |i: &[u8], o: &mut [u8]| crates::bits_runs_read(i, 4, run, o))),
    ]);
    bench.run("runs after 4 bits write", size, size, &plain, &shifted, &[
        ("library", Box::new(move |i: &[u8], o: &mut [u8]| calls::dk_runs_write(i, 4, run, o))),
        ("hand", Box::new(hand::runs_write_shifted)),
        ("kit", Box::new(move |i: &[u8], o: &mut [u8]| kit::runs_write(i, 4, run, o))),
        ("bits", Box::new(move |i: &[u8], o: &mut [u8]| crates::bits_runs_write(i, 4, run, o))),
    ]);
}

fn lists(bench: &mut Bench, random: &mut Random, size: usize) {
    let n = size / 2;
    let items: Vec<u16> = (0..n).map(|_| random.bits(16) as u16).collect();
    let mut wire = vec![0; 2 * n];
    assert!(hand::counted_write(&items, &mut wire));
    both!(bench, "Vec<u16> by count", size, n, items, wire,
        read "library" calls::dk_counted_read, "hand" hand::counted_read, "kit" kit::counted_read,
            "bits" crates::bits_counted_read, "best" crates::best_counted_read, "bytes" crates::bytes_counted_read;
        write "library" calls::dk_counted_write, "hand" hand::counted_write, "kit" kit::counted_write,
            "bits" crates::bits_counted_write, "best" crates::best_counted_write, "bytes" crates::bytes_counted_write;);
    let n = size / 10;
    let fives: Vec<Five> = (0..n)
        .map(|_| Five {
            a: random.bits(8) as u8,
            b: random.bits(16) as u16,
            c: random.bits(32) as u32,
            d: random.bits(16) as u16,
            e: random.bits(8) as u8,
        })
        .collect();
    let mut wire = vec![0; 10 * n];
    assert!(hand::fives_write(&fives, &mut wire));
    both!(bench, "tuples of five", size, 5 * n, fives, wire,
        read "library" calls::dk_fives_read, "hand" hand::fives_read, "kit" kit::fives_read,
            "bits" crates::bits_fives_read, "best" crates::best_fives_read, "bytes" crates::bytes_fives_read;
        write "library" calls::dk_fives_write, "hand" hand::fives_write, "kit" kit::fives_write,
            "bits" crates::bits_fives_write, "best" crates::best_fives_write, "bytes" crates::bytes_fives_write;);
}

// The works of each side that is built.
const WORKS: &[&[Works]] = &[
    #[cfg(side = "deku")]
    &[headers, bindings::lists, quads, signals, samples, wide, runs, lists],
    #[cfg(side = "records")]
    &[
        packets::udp_headers,
        packets::ipv4_headers,
        packets::can_frames,
        pieces::counted_bytes,
        pieces::counted_records,
        pieces::choices,
        pieces::questions,
        pieces::elf_headers,
        widths::flags,
        widths::signed,
        widths::long,
        widths::places,
        widths::growing,
    ],
    #[cfg(side = "parts")]
    &[parts::plain, parts::kept],
];
const LONG_WORKS: &[&[Works]] = &[
    #[cfg(side = "records")]
    &[widths::growing],
];

fn print_heading() {
    let mut heading = format!("{:<32} {:>7} {:>9}", "work", "size", "library");
    for peer in PEERS {
        write!(heading, " {peer:>8} {:>6}", "ratio").unwrap();
    }
    println!("nanoseconds a field, a record, or a byte where the work names runs; ratio: times the library takes as long as the peer");
    println!("{heading}");
}

fn main() {
    let args: Vec<String> = std::env::args().collect();
    let mode = match args[1].as_str() {
        "quick" => Mode::Quick,
        "full" => Mode::Full,
        "long" => Mode::Long,
        "profile" => Mode::Profile,
        "file" => return files::side(&args[2..]).unwrap(),
        other => panic!("quick, full, long or profile, not {other}"),
    };
    let only = args.get(3).cloned().unwrap_or_default();
    let mut bench = Bench { mode, only, csv: String::new(), rows: Vec::new(), gauge: Gauge::new() };
    let mut random = Random(0x9E3779B97F4A7C15);
    print_heading();
    let works = if mode == Mode::Long { LONG_WORKS } else { WORKS };
    for &size in bench.sizes() {
        for work in works.iter().copied().flatten() {
            work(&mut bench, &mut random, size);
        }
    }
    if mode == Mode::Long && cfg!(side = "files") {
        files::files(&mut bench);
    }
    growth(&bench);
    std::fs::write(&args[2], bench.csv).unwrap();
}
