//! How both sides are timed.
use crate::inputs::Kind;
use crate::{oracle, port};
use std::hint::black_box;
use std::time::{Duration, Instant};

/// Lent to the port again and again, and not cleared in between.
pub struct Buffers {
    work: Vec<u8>,
    result: Vec<u8>,
}

impl Buffers {
    pub fn new() -> Self {
        Buffers { work: vec![0xA5; 4_000_000], result: vec![0xA5; 4_000_000] }
    }
}

/// How long a measurement goes on: at least one round, then until the time or the rounds are used up.
#[derive(Clone, Copy)]
pub struct Effort {
    pub time: Duration,
    pub rounds: usize,
}

/// How often an input is read in one turn: short ones so often that the clock's own step does not count.
pub fn calls(input: &[u8]) -> u32 {
    (4_000 / input.len().max(1)).clamp(1, 200) as u32
}

/// The least time of either of two calls in nanoseconds. They take turns, so that whatever slows the machine for a while slows both.
pub fn least(effort: Effort, calls: u32, mut first: impl FnMut(), mut second: impl FnMut()) -> (f64, f64) {
    let time = |best: Duration, call: &mut dyn FnMut()| {
        let turn = Instant::now();
        (0..calls).for_each(|_| call());
        best.min(turn.elapsed())
    };
    let (start, mut best, mut rounds) = (Instant::now(), (Duration::MAX, Duration::MAX), 0);
    while rounds < 1 || start.elapsed() < effort.time && rounds < effort.rounds {
        best = (time(best.0, &mut first), time(best.1, &mut second));
        rounds += 1;
    }
    (best.0.as_nanos() as f64 / calls as f64, best.1.as_nanos() as f64 / calls as f64)
}

/// The port's number for an input: 0 where it takes it.
pub fn number(kind: Kind, input: &[u8], b: &mut Buffers) -> u32 {
    let answer = match kind {
        Kind::Page => port::html_to_markdown(black_box(input), &mut b.work, &mut b.result),
        Kind::Markdown => port::blocks(black_box(input), &mut b.work, &mut b.result),
    };
    black_box(answer).number
}

/// Nanoseconds of the port and of the Rust, each from the bytes on.
pub fn measure(name: &str, kind: Kind, input: &[u8], effort: Effort, b: &mut Buffers) -> (f64, f64) {
    let port = || {
        let number = number(kind, input, b);
        if number != 0 {
            stop(format!("{name} is refused with {number}, so it cannot be timed; take it out, or change it by README.md's table of refusals"));
        }
    };
    let rust = || {
        let text = std::str::from_utf8(black_box(input)).expect("the port took it, so it is UTF-8; compare/run finds where the two differ");
        match kind {
            Kind::Page => drop(black_box(oracle::html_to_markdown(text))),
            Kind::Markdown => drop(black_box(oracle::blocks(text))),
        }
    };
    least(effort, calls(input), port, rust)
}

pub fn stop(why: String) -> ! {
    eprintln!("bench: {why}");
    std::process::exit(2)
}
