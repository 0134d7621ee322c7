// Times one million frames in and out of the proved port over each rack, beside a plain port that keeps the same rules with a
// VecDeque for each bin. Each is run several times in turn; told are the median and, since on a busy machine the median has
// waiting in it, the fastest run.
use std::collections::VecDeque;
use std::hint::black_box;
use std::process::Command;
use std::time::Instant;

const ROUNDS: usize = 15;
const STREAMS: usize = 128;
const SHORTEST: u16 = 64;
const MORE_ON_WIRE: u32 = 20;
const SHORTEST_ON_WIRE: u64 = 84;
const LAST_TICK: u64 = (1 << 40) - 1;
const DELAY: u32 = 1_000;
const INPUTS: u8 = 2;

#[derive(Clone, Copy)]
struct Mark {
    stream: u8,
    length: u16,
    buffer: u32,
}

#[derive(Clone, Copy)]
struct Class {
    cycle: u32,
    bins: u8,
}

#[derive(Clone, Copy)]
struct Booking {
    input: u8,
    class: u8,
    longest: u16,
    quota: u32,
}

#[derive(Clone, Copy)]
struct Departure {
    stream: u8,
    class: u8,
    cycle: u64,
    start: u64,
    load: Mark,
}

#[derive(Debug)]
enum Fault {
    NotThere,
    NotLive,
    WrongInput,
    BadLength,
    BadStamp,
    StampBack,
    NoRoom,
    BadRack,
    BadUntil,
    ShortList,
}

// A stream: its booking if it is live, its last stamp, its last cycle and the octets given there.
#[derive(Clone, Copy, Default)]
struct Stream {
    booking: Option<Booking>,
    stamp: u64,
    cycle: u64,
    octets: u32,
}

struct Port {
    classes: Vec<Class>,
    // The number of the first bin of each class.
    firsts: Vec<usize>,
    bins: Vec<VecDeque<Mark>>,
    depth: usize,
    total: usize,
    held: usize,
    streams: [Stream; STREAMS],
    clock: u64,
    wire: u64,
}

impl Port {
    fn new(classes: &[Class]) -> Port {
        let most = |class: &Class| class.cycle as usize / SHORTEST_ON_WIRE as usize;
        let depth = classes.iter().map(most).max().unwrap_or(0);
        let total = classes.iter().map(|class| most(class) * usize::from(class.bins)).sum();
        let mut firsts = Vec::new();
        let mut bins = 0;
        for class in classes {
            firsts.push(bins);
            bins += usize::from(class.bins);
        }
        Port {
            classes: classes.to_vec(),
            firsts,
            bins: (0..bins).map(|_| VecDeque::with_capacity(depth)).collect(),
            depth,
            total,
            held: 0,
            streams: [Stream::default(); STREAMS],
            clock: 0,
            wire: 0,
        }
    }

    fn confirm(&mut self, stream: u8, booking: Booking) {
        self.streams[usize::from(stream)] = Stream { booking: Some(booking), ..Stream::default() };
    }

    // The earliest cycle with room, and the octets that the stream has there then.
    fn place(&self, stream: &Stream, booking: &Booking, octets: u32) -> Result<(u64, u32), Fault> {
        let class = self.classes[usize::from(booking.class)];
        let current = self.clock / u64::from(class.cycle);
        let reach = current + u64::from(class.bins);
        let mut cycle = stream.cycle.max(current + 1);
        let mut given = if cycle == stream.cycle { stream.octets } else { 0 };
        if given + octets > booking.quota {
            cycle += 1;
            given = 0;
        }
        if cycle >= reach || octets > booking.quota {
            return Err(Fault::NoRoom);
        }
        Ok((cycle, given + octets))
    }

    fn frame(&mut self, input: u8, stamp: u64, load: Mark) -> Result<u64, Fault> {
        let stream = self.streams.get(usize::from(load.stream)).ok_or(Fault::NotThere)?;
        if input >= INPUTS {
            return Err(Fault::NotThere);
        }
        let booking = stream.booking.ok_or(Fault::NotLive)?;
        if input != booking.input {
            return Err(Fault::WrongInput);
        }
        if load.length < SHORTEST || load.length > booking.longest {
            return Err(Fault::BadLength);
        }
        if stamp > self.clock || self.clock - stamp > u64::from(DELAY) {
            return Err(Fault::BadStamp);
        }
        if stamp < stream.stamp {
            return Err(Fault::StampBack);
        }
        let (cycle, octets) = self.place(stream, &booking, u32::from(load.length) + MORE_ON_WIRE)?;
        let at = self.bin(usize::from(booking.class), cycle);
        let bin = &mut self.bins[at];
        if bin.len() >= self.depth || self.held >= self.total {
            return Err(Fault::BadRack);
        }
        bin.push_back(load);
        self.held += 1;
        self.streams[usize::from(load.stream)] = Stream { booking: Some(booking), stamp, cycle, octets };
        Ok(cycle)
    }

    fn bin(&self, class: usize, cycle: u64) -> usize {
        self.firsts[class] + (cycle % u64::from(self.classes[class].bins)) as usize
    }

    // The load that leaves at a tick at which the wire is free: the oldest of the lowest class whose current bin has one.
    fn depart(&mut self, tick: u64) -> Option<Departure> {
        for (class, &Class { cycle, .. }) in self.classes.iter().enumerate() {
            let cycle = tick / u64::from(cycle);
            let at = self.bin(class, cycle);
            if let Some(load) = self.bins[at].pop_front() {
                self.held -= 1;
                return Some(Departure { stream: load.stream, class: class as u8, cycle, start: tick, load });
            }
        }
        None
    }

    fn run(&mut self, until: u64, list: &mut [Departure]) -> Result<usize, Fault> {
        if until < self.clock || until > LAST_TICK {
            return Err(Fault::BadUntil);
        }
        if (list.len() as u64) < (until - self.clock) / SHORTEST_ON_WIRE + 1 {
            return Err(Fault::ShortList);
        }
        let fastest = u64::from(self.classes[0].cycle);
        let mut count = 0;
        let mut tick = self.clock.max(self.wire);
        while tick < until {
            if let Some(departure) = self.depart(tick) {
                tick += u64::from(departure.load.length) + u64::from(MORE_ON_WIRE);
                self.wire = tick;
                list[count] = departure;
                count += 1;
            } else if self.held == 0 {
                break;
            } else {
                tick = (tick / fastest + 1) * fastest;
            }
        }
        self.clock = until;
        Ok(count)
    }
}

// The same traffic as crates/port_bench hands over.
#[derive(Clone, Copy)]
struct Habit {
    class: u8,
    first_stream: u8,
    rest: u32,
    frames: u32,
    more: u16,
    longest: u16,
    quota: u32,
}

const HABITS: [Habit; 4] = [
    Habit { class: 0, first_stream: 0, rest: 0, frames: 2, more: 15, longest: 79, quota: 99 },
    Habit { class: 1, first_stream: 32, rest: 0, frames: 2, more: 63, longest: 127, quota: 294 },
    Habit { class: 2, first_stream: 64, rest: 1, frames: 3, more: 63, longest: 127, quota: 441 },
    Habit { class: 3, first_stream: 96, rest: 3, frames: 3, more: 127, longest: 191, quota: 633 },
];
const EACH: u8 = 4;
const RUN: u64 = 4_000;
const RUNS: u32 = 40_000;
const LAST_RUNS: u32 = 12;
const PLACES: usize = 48;

fn length_of(habit: &Habit, number: u32) -> u16 {
    SHORTEST + ((number.wrapping_mul(2_654_435_761) >> 16) as u16 & habit.more)
}

fn book_all(port: &mut Port) {
    for habit in HABITS {
        for s in 0..EACH {
            let stream = habit.first_stream + s;
            let Habit { class, longest, quota, .. } = habit;
            port.confirm(stream, Booking { input: stream & 1, class, longest, quota });
        }
    }
}

fn hand_all(port: &mut Port, run: u32, number: &mut u32) -> Result<(), Fault> {
    for habit in HABITS.iter().filter(|habit| run & habit.rest == 0) {
        for f in 0..habit.frames {
            let stamp = port.clock.saturating_sub(u64::from(habit.frames - f));
            for s in 0..EACH {
                let stream = habit.first_stream + s;
                let load = Mark { stream, length: length_of(habit, *number), buffer: *number };
                port.frame(stream & 1, stamp, load)?;
                *number += 1;
            }
        }
    }
    Ok(())
}

fn after(sum: u64, departure: &Departure) -> u64 {
    let numbers = u64::from(departure.stream) << 48
        | u64::from(departure.class) << 56
        | u64::from(departure.load.buffer);
    let ticks = departure.cycle << 40 ^ departure.start;
    sum.wrapping_mul(31).wrapping_add(numbers ^ ticks)
}

fn send(port: &mut Port, list: &mut [Departure], tally: &mut (u64, u64)) -> Result<(), Fault> {
    let count = port.run(port.clock + RUN, list)?;
    for departure in &list[..count] {
        *tally = (tally.0 + 1, after(tally.1, departure));
    }
    Ok(())
}

#[inline(never)]
fn passes(classes: &[Class]) -> Result<(u64, u64), Fault> {
    let mut port = Port::new(classes);
    book_all(&mut port);
    let none = Departure { stream: 0, class: 0, cycle: 0, start: 0, load: Mark { stream: 0, length: 64, buffer: 0 } };
    let mut list = [none; PLACES];
    let mut tally = (0, 0);
    let mut number = 0;
    for run in 0..RUNS {
        hand_all(&mut port, run, &mut number)?;
        send(&mut port, &mut list, &mut tally)?;
    }
    for _ in 0..LAST_RUNS {
        send(&mut port, &mut list, &mut tally)?;
    }
    Ok(tally)
}

// Nanoseconds of the plain port, its departures and their sum.
fn run_plain() -> (u64, u64, u64) {
    let classes = [2_000, 4_000, 8_000, 16_000].map(|cycle| Class { cycle, bins: 3 });
    let start = Instant::now();
    let (count, sum) = passes(black_box(&classes)).expect("no refusal");
    (start.elapsed().as_nanos() as u64, black_box(count), black_box(sum))
}

// The same of the proved port over rows and over cells, as its program tells them, and what it tells of the idle runs.
fn run_proved() -> ([(u64, u64, u64); 2], String) {
    let out = Command::new("crates/port_bench/out/port_bench").arg("time").output().expect("crates/port_bench/out/port_bench");
    let text = String::from_utf8(out.stdout).expect("text");
    let (front, idle) = text.split_at(text.find("idle").unwrap_or(text.len()));
    let numbers: Vec<u64> = front.split(|c: char| !c.is_ascii_digit()).filter_map(|w| w.parse().ok()).collect();
    let &[rows_count, rows_sum, cells_count, cells_sum, rows, cells] = &numbers[..] else { panic!("{text}") };
    ([(rows, rows_count, rows_sum), (cells, cells_count, cells_sum)], idle.to_string())
}

fn main() {
    let names = ["VecDeque per bin", "port over rows", "port over cells"];
    let mut times = [const { Vec::new() }; 3];
    let mut frames = 0;
    let mut idle = String::new();
    for _ in 0..ROUNDS {
        let (plain, count, sum) = run_plain();
        let ([rows, cells], told) = run_proved();
        assert!((count, sum) == (rows.1, rows.2) && (count, sum) == (cells.1, cells.2), "the ports differ");
        for (times, time) in times.iter_mut().zip([plain, rows.0, cells.0]) {
            times.push(time);
        }
        (frames, idle) = (count, told);
    }
    for times in &mut times {
        times.sort_unstable();
    }
    for (word, at) in [("median", ROUNDS / 2), ("fastest", 0)] {
        let plain = times[0][at] as f64;
        for (name, times) in names.iter().zip(&times) {
            let time = times[at] as f64;
            let (each, ratio) = (time / frames as f64, time / plain);
            println!("{word:7}  {name:16}  {each:6.2} ns per frame  {ratio:.2} of the plain port's time");
        }
    }
    print!("{idle}");
}
