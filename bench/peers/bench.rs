//! Measures works in turns, in processor time of this thread, and prints a line for each.

use crate::kit;
use std::fmt::Write as _;
use std::hint::black_box;

#[repr(C)]
struct Timespec {
    seconds: i64,
    nanos: i64,
}

extern "C" {
    fn clock_gettime(clock: i32, time: *mut Timespec) -> i32;
}

// Nanoseconds of processor time of this thread (clock 3 of Linux).
pub fn now() -> f64 {
    let mut t = Timespec { seconds: 0, nanos: 0 };
    assert_eq!(unsafe { clock_gettime(3, &mut t) }, 0);
    t.seconds as f64 * 1e9 + t.nanos as f64
}

pub struct Random(pub u64);

impl Random {
    pub fn next(&mut self) -> u64 {
        self.0 ^= self.0 << 13;
        self.0 ^= self.0 >> 7;
        self.0 ^= self.0 << 17;
        self.0.wrapping_mul(0x2545F4914F6CDD1D) >> 8
    }

    pub fn bits(&mut self, n: u32) -> u64 {
        self.next() & ((1 << n) - 1)
    }
}

pub type Work<'a, A, B> = (&'static str, Box<dyn Fn(&[A], &mut [B]) -> bool + 'a>);

/// A side that runs a process of its own.
pub type Side<'a> = Box<dyn Fn() -> f64 + 'a>;

/// What is run.
#[derive(Clone, Copy, PartialEq)]
pub enum Mode {
    /// Each work at two sizes.
    Quick,
    /// Each work at five sizes.
    Full,
    /// Files of 10,000,000 numbers, and vectors that grow to 64 MiB.
    Long,
    /// The library alone, half a second for each work.
    Profile,
}

pub const PEERS: [&str; 9] = ["hand", "stream", "kit", "bits", "best", "bytes", "c", "rows", "rust"];

pub struct Bench {
    pub mode: Mode,
    pub only: String,
    pub csv: String,
    // Of each row: its name, its size, and the library's time over that of the gauge beside it.
    pub rows: Vec<(String, usize, f64)>,
    pub gauge: Gauge,
}

// A fixed piece of work: the machine's speed, which other work on it changes, is taken beside each measure of the library.
pub struct Gauge {
    wire: Vec<u8>,
    out: Vec<u16>,
}

impl Gauge {
    pub fn new() -> Gauge {
        Gauge { wire: vec![0x5A; 1 << 14], out: vec![0; 13104] }
    }

    fn nanos(&mut self) -> f64 {
        let start = now();
        for _ in 0..4 {
            assert!(kit::samples_read(black_box(&self.wire), black_box(&mut self.out)));
        }
        now() - start
    }
}

fn median(times: &mut [f64]) -> f64 {
    times.sort_by(f64::total_cmp);
    times[times.len() / 2]
}

impl Bench {
    pub fn sizes(&self) -> &'static [usize] {
        match self.mode {
            Mode::Quick => &[1 << 14, 1 << 20],
            Mode::Full => &[1 << 10, 1 << 14, 1 << 18, 1 << 21, 1 << 24],
            Mode::Long => &[1 << 10, 1 << 14, 1 << 18, 1 << 20, 1 << 22, 1 << 24, 1 << 26],
            Mode::Profile => &[1 << 14],
        }
    }

    // Measures each side's work from `from` to `to`, which is to come out as `wanted`; `units` fields or bytes are handled.
    pub fn run<A, B: Clone + Default + PartialEq>(
        &mut self,
        name: &str,
        size: usize,
        units: usize,
        from: &[A],
        wanted: &[B],
        sides: &[Work<A, B>],
    ) {
        if !name.starts_with(&self.only) {
            return;
        }
        let sides = if self.mode == Mode::Profile { &sides[..1] } else { sides };
        let mut out = vec![B::default(); wanted.len()];
        let aim = match self.mode {
            Mode::Profile => 5e7,
            Mode::Quick => 1e6,
            Mode::Full | Mode::Long => 2e6,
        };
        let mut reps = Vec::new();
        for (side, work) in sides {
            out.fill(B::default());
            let start = now();
            let done = black_box(work)(black_box(from), black_box(&mut out));
            let once = (now() - start).max(20.0);
            assert!(done, "{name}: {side} refuses");
            assert!(out == wanted, "{name}: {side} differs");
            reps.push(((aim / once) as usize).clamp(1, 1_000_000));
        }
        let rounds = match size {
            0..=0x40000 => 21,
            0..=0x100000 => 9,
            _ => 3,
        };
        let mut times = vec![Vec::new(); sides.len()];
        let mut over_gauge = Vec::new();
        for _ in 0..rounds {
            let before = self.gauge.nanos();
            for (i, (_, work)) in sides.iter().enumerate() {
                let start = now();
                for _ in 0..reps[i] {
                    black_box(black_box(work)(black_box(from), black_box(&mut out)));
                }
                let time = (now() - start) / reps[i] as f64 / units as f64;
                times[i].push(time);
                if i == 0 {
                    over_gauge.push(2.0 * time / (before + self.gauge.nanos()));
                }
            }
        }
        self.print(name, size, sides.iter().map(|(side, _)| *side), times);
        self.rows.push((name.to_string(), size, median(&mut over_gauge)));
    }

    /// Measures each side's work, which returns its time a unit, in turns: three times.
    pub fn by_process(&mut self, name: &str, size: usize, sides: &[(&'static str, Side)]) {
        if !name.starts_with(&self.only) {
            return;
        }
        let mut times = vec![Vec::new(); sides.len()];
        for _ in 0..3 {
            for (to, (_, side)) in times.iter_mut().zip(sides) {
                to.push(side());
            }
        }
        self.print(name, size, sides.iter().map(|(side, _)| *side), times);
    }

    // Prints the row of a work, of which the times of each side are given. The ratio is the median of those of the rounds, since the machine may be
    // slower in one round than in the next.
    fn print(&mut self, name: &str, size: usize, sides: impl Iterator<Item = &'static str>, mut times: Vec<Vec<f64>>) {
        let mut peers = [None; PEERS.len()];
        let mut own = 0.0;
        let library = times[0].clone();
        for (side, times) in sides.zip(&mut times) {
            let mut ratios: Vec<f64> = library.iter().zip(&*times).map(|(a, b)| a / b).collect();
            let ratio = median(&mut ratios);
            let mid = median(times);
            let (low, high) = (times[0], times[times.len() - 1]);
            writeln!(self.csv, "{name},{size},{side},{mid:.4},{low:.4},{high:.4},{ratio:.3}").unwrap();
            match PEERS.iter().position(|p| *p == side) {
                Some(place) => peers[place] = Some((mid, ratio)),
                None => own = mid,
            }
        }
        let mut line = format!("{name:<32} {:>6}K {own:>9.3}", size >> 10);
        for peer in peers {
            match peer {
                Some((ns, ratio)) => write!(line, " {ns:>8.3} {ratio:>6.1}").unwrap(),
                None => write!(line, " {:>8} {:>6}", "-", "").unwrap(),
            }
        }
        println!("{line}");
    }
}

// Measures both ways between the values and their bytes, under two names or under one.
macro_rules! both {
    ($bench:ident, $rname:literal and $wname:literal, $size:ident, $units:expr, $values:expr, $wire:expr,
     read $($rside:literal $read:expr),* ; write $($wside:literal $write:expr),* ;) => {
        let (values, wire) = (&$values[..], &$wire[..]);
        $bench.run($rname, $size, $units, wire, values, &[$(($rside, Box::new($read))),*]);
        $bench.run($wname, $size, $units, values, wire, &[$(($wside, Box::new($write))),*]);
    };
    ($bench:ident, $name:literal, $size:ident, $units:expr, $values:expr, $wire:expr,
     read $($rside:literal $read:expr),* ; write $($wside:literal $write:expr),* ;) => {
        let (values, wire) = (&$values[..], &$wire[..]);
        $bench.run(concat!($name, " read"), $size, $units, wire, values, &[$(($rside, Box::new($read))),*]);
        $bench.run(concat!($name, " write"), $size, $units, values, wire, &[$(($wside, Box::new($write))),*]);
    };
}

pub(crate) use both;

/// How the time of a unit grows from size to size.
pub fn growth(bench: &Bench) {
    println!();
    println!("growth: the library's time a unit at each size over that at 16 KiB, each over the time of a fixed work beside it; 1 is linear");
    let mut names: Vec<&String> = Vec::new();
    for row in &bench.rows {
        if !names.contains(&&row.0) {
            names.push(&row.0);
        }
    }
    for name in names {
        let of: Vec<_> = bench.rows.iter().filter(|r| r.0 == *name).collect();
        let first = of.iter().find(|r| r.1 >= 1 << 14).map_or(of[0].2, |r| r.2);
        let mut line = format!("{name:<32}");
        for row in of {
            write!(line, " {:>6}K {:>5.2}", row.1 >> 10, row.2 / first).unwrap();
        }
        println!("{line}");
    }
}
