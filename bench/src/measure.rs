//! Times in nanoseconds, the best of many turns.

use crate::rows::{Part, Rows};
use crate::short;
use std::io::{stderr, IsTerminal};
use std::mem::take;
use std::time::{Duration, Instant};

const ROUNDS: u32 = 3;
const TURNS: u32 = 60;
const TURN: Duration = Duration::from_millis(2);

/// The best of `TURNS` turns, each of as many calls as fill `TURN`.
fn best(call: &mut dyn FnMut()) -> f64 {
    let start = Instant::now();
    call();
    let once = start.elapsed().max(Duration::from_nanos(50));
    let calls = (TURN.as_nanos() / once.as_nanos()).clamp(1, 100_000) as u32;
    let mut turn = || {
        let start = Instant::now();
        (0..calls).for_each(|_| call());
        start.elapsed().as_secs_f64() * 1e9 / f64::from(calls)
    };
    (0..TURNS).map(|_| turn()).fold(f64::INFINITY, f64::min)
}

/// A row as it was measured.
pub struct Pair {
    pub what: String,
    pub peer: String,
    pub own: f64,
    pub other: f64,
}

/// How much there is to measure; runs none of it.
#[derive(Default)]
struct Number {
    rows: u32,
    pieces: u32,
}

impl Number {
    fn add(&mut self, pieces: u32) {
        self.rows += 1;
        self.pieces += pieces;
    }
}

impl Rows for Number {
    fn row(&mut self, _: &str, _: &str, _: &mut dyn FnMut(), _: &mut dyn FnMut()) {
        self.add(2);
    }

    fn alone(&mut self, _: &str, _: &mut dyn FnMut()) -> f64 {
        self.add(1);
        1.0
    }
}

/// A line of a table.
fn print<T: AsRef<str>>(cells: &[T]) {
    let cells: Vec<&str> = cells.iter().map(AsRef::as_ref).collect();
    println!("| {} |", cells.join(" | "));
}

fn head(columns: &[&str]) {
    print(columns);
    println!("|{}", "---|".repeat(columns.len()));
}

pub struct Measure {
    done: Number,
    all: Number,
    pairs: Vec<Pair>,
}

impl Measure {
    /// A table for each part; after those of the calls, at the end, their best in short.
    pub fn run(parts: &[&Part]) {
        let (mut all, mut calls) = (Number::default(), vec![]);
        parts.iter().for_each(|part| (part.rows)(&mut all));
        let mut measure = Measure { done: Number::default(), all, pairs: vec![] };
        for part in parts {
            head(part.columns);
            (part.rows)(&mut measure);
            println!();
            let pairs = take(&mut measure.pairs);
            if part.name == "calls" {
                calls = pairs;
            }
        }
        if !calls.is_empty() {
            head(&short::COLUMNS);
            short::lines(&calls).iter().for_each(|line| print(line));
            println!();
        }
    }

    /// One line that is written over, where someone looks. It is cut to one, since a second could not be.
    fn progress(text: &str) {
        if stderr().is_terminal() {
            eprint!("\r\x1b[K{}", text.chars().take(78).collect::<String>());
        }
    }

    /// The line while a row is measured; what is left, as if every turn just filled its time.
    fn begin(&mut self, what: &str, pieces: u32) {
        let left = TURN * (TURNS * ROUNDS * (self.all.pieces - self.done.pieces));
        self.done.add(pieces);
        Measure::progress(&format!("{} of {}, about {} s left: {what}", self.done.rows, self.all.rows, left.as_secs() + 1));
    }
}

impl Rows for Measure {
    /// The two take turns, so that both see the same machine.
    fn row(&mut self, what: &str, peer: &str, ours: &mut dyn FnMut(), theirs: &mut dyn FnMut()) {
        self.begin(&format!("{what}, {peer}"), 2);
        let (mut own, mut other) = (f64::INFINITY, f64::INFINITY);
        for _ in 0..ROUNDS {
            own = own.min(best(ours));
            other = other.min(best(theirs));
        }
        Measure::progress("");
        self.line(&[what.into(), format!("{own:.0}"), peer.into(), format!("{other:.0}"), format!("{:.2}", own / other)]);
        self.pairs.push(Pair { what: what.into(), peer: peer.into(), own, other });
    }

    fn alone(&mut self, what: &str, code: &mut dyn FnMut()) -> f64 {
        self.begin(what, 1);
        let time = (0..ROUNDS).map(|_| best(code)).fold(f64::INFINITY, f64::min);
        Measure::progress("");
        time
    }

    fn line(&mut self, cells: &[String]) {
        print(cells);
    }
}
