//! Timing: batches long enough for the clock, the two sides in turn, and the least time of each.

use std::fmt::Debug;
use std::io::IsTerminal;
use std::sync::atomic::{AtomicUsize, Ordering};
use std::sync::OnceLock;
use std::time::{Duration, Instant};

/// How long a batch takes at least, and how many batches there are of each side.
const BATCH: Duration = Duration::from_micros(500);
const BATCHES: usize = 600;

/// How many rows there are.
const ROWS: usize = 16;

/// Ends the run where the two sides' answers differ.
pub fn same<T: PartialEq + Debug>(name: &str, ours: T, others: T) {
    if ours != others {
        let mut told = format!("bench {name}: the answers differ: ours {ours:?} the other {others:?}");
        told.truncate(2000);
        println!("{told}");
        std::process::exit(1);
    }
}

/// Prints a line: what each side takes, the bar, and the crate's time over ours. Where the program has arguments, only for
/// the rows that they name.
pub fn row(name: &str, bar: f64, ours: impl FnMut(), crates: impl FnMut()) {
    if let Some((ours, crates)) = in_turn(name, ours, crates) {
        println!("bench {name} ours {ours:.1} crate {crates:.1} bar {bar} ratio {:.2}", crates / ours);
    }
}

/// A line of a read in two calls or in pieces, beside the whole-message reader of the library on the same bytes. There is a
/// bar where one is asked for.
pub fn row_whole(name: &str, bar: &str, ours: impl FnMut(), whole: impl FnMut()) {
    if let Some((ours, whole)) = in_turn(name, ours, whole) {
        println!("bench {name} ours {ours:.1} whole {whole:.1} bar {bar} ratio {:.2}", whole / ours);
    }
}

/// A line that holds what a byte costs in a long message against a byte of a short one: their lengths, and how many times
/// as much it may cost.
pub fn row_bytes(name: &str, most: f64, lengths: [usize; 2], long: impl FnMut(), short: impl FnMut()) {
    if let Some((long, short)) = in_turn(name, long, short) {
        let [of_long, of_short] = [long / lengths[0] as f64, short / lengths[1] as f64];
        let [long, short] = lengths;
        println!(
            "bench {name} a byte of {long} {of_long:.2} a byte of {short} {of_short:.2} most {most} times {:.2}",
            of_long / of_short
        );
    }
}

/// The least times of two sides, in turn; none where the program has arguments and they do not name the row.
fn in_turn(name: &str, mut one: impl FnMut(), mut other: impl FnMut()) -> Option<(f64, f64)> {
    if std::env::args().count() > 1 && std::env::args().skip(1).all(|asked| asked != name) {
        return None;
    }
    let line = timing(name);
    let (one_calls, other_calls) = (calls(&mut one), calls(&mut other));
    let (mut one_least, mut other_least) = (f64::INFINITY, f64::INFINITY);
    for _ in 0..BATCHES {
        one_least = one_least.min(batch(one_calls, &mut one));
        other_least = other_least.min(batch(other_calls, &mut other));
    }
    drop(line);
    Some((one_least, other_least))
}

/// What is being timed, on standard error: on a terminal a line that is taken away when it has been, otherwise a plain one.
struct Line;

fn timing(name: &str) -> Line {
    static BEGAN: OnceLock<Instant> = OnceLock::new();
    static TIMED: AtomicUsize = AtomicUsize::new(0);
    let seconds = BEGAN.get_or_init(Instant::now).elapsed().as_secs();
    let asked = std::env::args().skip(1).count();
    let (row, rows) = (TIMED.fetch_add(1, Ordering::Relaxed) + 1, if asked == 0 { ROWS } else { asked });
    let words = format!("timing {name}, {row} of {rows}, {seconds} s");
    if std::io::stderr().is_terminal() {
        eprint!("{words}");
    } else {
        eprintln!("{words}");
    }
    Line
}

impl Drop for Line {
    fn drop(&mut self) {
        if std::io::stderr().is_terminal() {
            eprint!("\r\x1b[K");
        }
    }
}

/// The least time of one side alone.
pub fn least(mut call: impl FnMut()) -> f64 {
    let calls = calls(&mut call);
    (0..BATCHES).map(|_| batch(calls, &mut call)).fold(f64::INFINITY, f64::min)
}

/// How many calls a batch has.
fn calls(call: &mut impl FnMut()) -> u32 {
    let mut calls = 1;
    while batch(calls, call) * f64::from(calls) < BATCH.as_nanos() as f64 {
        calls *= 2;
    }
    calls
}

/// The nanoseconds of a call in a batch.
fn batch(calls: u32, call: &mut impl FnMut()) -> f64 {
    let began = Instant::now();
    for _ in 0..calls {
        call();
    }
    began.elapsed().as_nanos() as f64 / f64::from(calls)
}
