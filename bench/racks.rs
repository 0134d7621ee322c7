// Times ten million pairs of a put and a take over 32 bins on each proved rack, beside a plain store with a VecDeque
// for each bin that keeps the same rules. Each is run several times in turn, and the fastest run of each counts.
use std::collections::VecDeque;
use std::hint::black_box;
use std::process::Command;
use std::time::Instant;

const PAIRS: u32 = 10_000_000;
const ROUNDS: usize = 7;
const BINS: u32 = 32;
const DEPTH: usize = 64;
const TOTAL: usize = 2_048;
const LOADS_FIRST: u32 = 8;

#[derive(Clone, Copy)]
#[allow(dead_code)]
struct Mark {
    stream: u8,
    length: u16,
    buffer: u32,
}

#[derive(Debug)]
#[allow(dead_code)]
enum Fault {
    NotThere,
    Full,
}

struct Plain {
    bins: Vec<VecDeque<Mark>>,
    depth: usize,
    total: usize,
    held: usize,
}

impl Plain {
    fn new(bins: usize, depth: usize, total: usize) -> Plain {
        let bins = (0..bins).map(|_| VecDeque::with_capacity(depth)).collect();
        Plain { bins, depth, total, held: 0 }
    }

    fn put(&mut self, bin: u32, load: Mark) -> Result<(), Fault> {
        let bin = self.bins.get_mut(bin as usize).ok_or(Fault::NotThere)?;
        if bin.len() >= self.depth || self.held >= self.total {
            return Err(Fault::Full);
        }
        bin.push_back(load);
        self.held += 1;
        Ok(())
    }

    fn take(&mut self, bin: u32) -> Result<Option<Mark>, Fault> {
        let bin = self.bins.get_mut(bin as usize).ok_or(Fault::NotThere)?;
        let load = bin.pop_front();
        self.held -= usize::from(load.is_some());
        Ok(load)
    }
}

fn mark(buffer: u32) -> Mark {
    Mark { stream: 1, length: 64, buffer }
}

#[inline(never)]
fn plain(count: u32) -> u64 {
    let mut rack = Plain::new(black_box(BINS) as usize, black_box(DEPTH), black_box(TOTAL));
    for i in 0..BINS * LOADS_FIRST {
        let _ = rack.put(i % BINS, mark(i));
    }
    let mut sum = 0u64;
    for i in 0..count {
        let _ = rack.put(i % BINS, mark(i));
        if let Ok(Some(mark)) = rack.take((i ^ 16) % BINS) {
            sum = sum.wrapping_add(u64::from(mark.buffer));
        }
    }
    sum
}

// Nanoseconds of the plain store, and what it took.
fn run_plain() -> (u64, u64) {
    let start = Instant::now();
    let sum = black_box(plain(black_box(PAIRS)));
    (start.elapsed().as_nanos() as u64, sum)
}

// Nanoseconds of the rows rack and of the cells rack, as the proved program tells them, and what each took.
fn run_proved() -> [(u64, u64); 2] {
    let out = Command::new("crates/rack_bench/out/rack_bench").arg("time").output().expect("crates/rack_bench/out/rack_bench");
    let text = String::from_utf8(out.stdout).expect("text");
    let numbers: Vec<u64> = text.split(|c: char| !c.is_ascii_digit()).filter_map(|w| w.parse().ok()).collect();
    [(numbers[2], numbers[0]), (numbers[3], numbers[1])]
}

fn main() {
    let names = ["VecDeque per bin", "rows rack", "cells rack"];
    let mut best = [u64::MAX; 3];
    for _ in 0..ROUNDS {
        let (plain, sum) = run_plain();
        let [rows, cells] = run_proved();
        assert!(sum != 0 && sum == rows.1 && sum == cells.1, "the stores differ");
        for (best, time) in best.iter_mut().zip([plain, rows.0, cells.0]) {
            *best = time.min(*best);
        }
    }
    for (name, time) in names.iter().zip(best) {
        let each = time as f64 / f64::from(PAIRS);
        println!("{name:16}  {each:6.2} ns per pair  {:.2} of the plain store's time", time as f64 / best[0] as f64);
    }
}
