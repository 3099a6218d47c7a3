//! Files of numbers of 16 bits, each side in processes of its own, since only a program of Rattle opens a file. The sides take turns, and what is measured is the
//! processor time of a process, its system calls with it.

use crate::bench::{Bench, Side};
use bitstream_io::{BigEndian as Msb, BitRead, BitReader, BitWrite, BitWriter};
use std::fs::{self, File};
use std::io::{self, BufReader, BufWriter, Read, Write};
use std::process::{Command, Stdio};

const COUNT: u32 = 10_000_000;
const LIBRARY: &str = "crates/bench_files/out/bench_files";

#[repr(C)]
struct Usage {
    // Seconds and microseconds, in the program and then in the system.
    times: [i64; 4],
    others: [i64; 14],
}

extern "C" {
    fn wait4(process: i32, status: *mut i32, options: i32, usage: *mut Usage) -> i32;
}

// The sum of the numbers that stand in the file.
fn wanted_sum() -> u64 {
    (0..COUNT).fold(0, |sum, i| (sum & 0xffffffff) + i as u16 as u64)
}

// Runs a side once, and returns its processor time in nanoseconds, and what it printed.
fn once(side: &str, way: &str, mode: &str, path: &str) -> (f64, String) {
    let mut command = if side == "library" {
        Command::new(LIBRARY)
    } else {
        let mut command = Command::new(std::env::current_exe().unwrap());
        command.args(["file", side]);
        command
    };
    let mut child = command.args([way, mode, path, &COUNT.to_string()]).stdout(Stdio::piped()).spawn().unwrap();
    let mut text = String::new();
    child.stdout.take().unwrap().read_to_string(&mut text).unwrap();
    let mut usage = Usage { times: [0; 4], others: [0; 14] };
    let mut status = 0;
    assert!(unsafe { wait4(child.id() as i32, &mut status, 0, &mut usage) } > 0 && status == 0, "{side} {way} {mode}: failed");
    let [seconds, micros, system_seconds, system_micros] = usage.times;
    ((seconds + system_seconds) as f64 * 1e9 + (micros + system_micros) as f64 * 1e3, text)
}

/// Measures reading and writing, straight, through a buffer, and in memory.
pub fn files(bench: &mut Bench) {
    let (path, own) = ("numbers.bin", "written.bin");
    let wire: Vec<u8> = (0..COUNT).flat_map(|i| (i as u16).to_be_bytes()).collect();
    fs::write(path, &wire).unwrap();
    let sum = wanted_sum().to_string();
    for mode in ["straight", "buffered", "memory"] {
        let sides = ["library", "hand", "bits"];
        let run = |side: &str| {
            let (time, text) = once(side, "read", mode, path);
            assert!(text.trim() == sum, "{side}: {mode}: read {text}");
            time / COUNT as f64
        };
        bench.by_process(&format!("file read, {mode}"), wire.len(), &sides.map(|side| (side, Box::new(move || run(side)) as Side)));
        let run = |side: &str| {
            fs::remove_file(own).ok();
            let (time, _) = once(side, "write", mode, own);
            assert!(fs::read(own).unwrap() == wire, "{side}: {mode}: written");
            time / COUNT as f64
        };
        bench.by_process(&format!("file written, {mode}"), wire.len(), &sides.map(|side| (side, Box::new(move || run(side)) as Side)));
    }
    fs::remove_file(path).ok();
    fs::remove_file(own).ok();
}

fn sum_by_hand<R: Read>(mut source: R, count: u32) -> io::Result<u64> {
    let mut sum = 0;
    for _ in 0..count {
        let mut two = [0; 2];
        source.read_exact(&mut two)?;
        sum = (sum & 0xffffffff) + u16::from_be_bytes(two) as u64;
    }
    Ok(sum)
}

fn put_by_hand<W: Write>(mut sink: W, count: u32) -> io::Result<W> {
    for i in 0..count {
        sink.write_all(&(i as u16).to_be_bytes())?;
    }
    sink.flush()?;
    Ok(sink)
}

fn sum_by_bits<R: Read>(source: R, count: u32) -> io::Result<u64> {
    let mut r = BitReader::endian(source, Msb);
    let mut sum = 0;
    for _ in 0..count {
        sum = (sum & 0xffffffff) + r.read::<u16>(16)? as u64;
    }
    Ok(sum)
}

fn put_by_bits<W: Write>(sink: W, count: u32) -> io::Result<W> {
    let mut w = BitWriter::endian(sink, Msb);
    for i in 0..count {
        w.write(16, i as u16)?;
    }
    let mut sink = w.into_writer();
    sink.flush()?;
    Ok(sink)
}

/// One side's work, in a process of its own: `file SIDE read|write MODE PATH COUNT`.
pub fn side(args: &[String]) -> io::Result<()> {
    let [side, way, mode, path, count] = args else { return Err(io::ErrorKind::InvalidInput.into()) };
    let count: u32 = count.parse().map_err(|_| io::ErrorKind::InvalidInput)?;
    if way == "read" {
        let sum = match (side.as_str(), mode.as_str()) {
            ("hand", "straight") => sum_by_hand(File::open(path)?, count)?,
            ("hand", "buffered") => sum_by_hand(BufReader::new(File::open(path)?), count)?,
            ("hand", _) => sum_by_hand(&fs::read(path)?[..], count)?,
            (_, "straight") => sum_by_bits(File::open(path)?, count)?,
            (_, "buffered") => sum_by_bits(BufReader::new(File::open(path)?), count)?,
            _ => sum_by_bits(&fs::read(path)?[..], count)?,
        };
        println!("{sum}");
        return Ok(());
    }
    match (side.as_str(), mode.as_str()) {
        ("hand", "straight") => drop(put_by_hand(File::create(path)?, count)?),
        ("hand", "buffered") => drop(put_by_hand(BufWriter::new(File::create(path)?), count)?),
        ("hand", _) => fs::write(path, put_by_hand(Vec::new(), count)?)?,
        (_, "straight") => drop(put_by_bits(File::create(path)?, count)?),
        (_, "buffered") => drop(put_by_bits(BufWriter::new(File::create(path)?), count)?),
        _ => fs::write(path, put_by_bits(Vec::new(), count)?)?,
    }
    Ok(())
}
