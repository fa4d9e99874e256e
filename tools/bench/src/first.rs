//! The first call of a fresh thread beside later ones: it is the first to touch the thread's stack.
use crate::clock::{once, time};
use crate::sides::{Crate, DEFAULT, FAST, Given, lend, port};
use records::Card;
use std::hint::black_box;
use std::thread::{Builder, scope};

const THREADS: usize = 50;

/// Runs on a fresh thread. Its stack is too large to be one that an earlier thread has left: the C library
/// keeps 40 MB of those at most.
fn in_fresh_thread(run: impl FnOnce() -> f64 + Send) -> f64 {
    let builder = Builder::new().stack_size(port::STACK);
    scope(|s| builder.spawn_scoped(s, run).unwrap().join().unwrap())
}

/// The median of what a run gives on each of the threads.
fn first(mut run: impl FnMut() -> f64 + Send) -> f64 {
    let mut times: Vec<f64> = (0..THREADS).map(|_| in_fresh_thread(&mut run)).collect();
    times.sort_by(f64::total_cmp);
    (times[(THREADS - 1) / 2] + times[THREADS / 2]) / 2.0
}

/// The crate's first call and later ones, to a listing. Pairs belong to a thread, so each makes its own,
/// which is not timed.
fn crate_side(side: &Crate, g: &Given) -> [f64; 2] {
    let call = || {
        let _ = black_box((side.listing)(black_box(g.text), g.options));
    };
    let first = first(|| {
        (side.prepare)(g.text, &g.spans);
        once(call)
    });
    (side.prepare)(g.text, &g.spans);
    [first, time(call)]
}

fn port_side(c: &Card) -> [f64; 2] {
    let mut out = lend(c);
    let mut call = || {
        black_box(port(c, &mut out));
    };
    [first(|| once(&mut call)), time(call)]
}

fn print(cells: [&str; 7]) {
    let [card, times @ ..] = cells;
    print!("{card:28}");
    times.iter().for_each(|t| print!(" {t:>12}"));
    println!();
}

pub fn head() {
    print(["first", "crate", "later", "fast", "later", "port", "later"]);
}

pub fn measure(name: &str, c: &Card) {
    let g = Given::new(c).expect("a list of pairs");
    let times = [
        crate_side(&DEFAULT, &g),
        crate_side(&FAST, &g),
        port_side(c),
    ];
    let shown: Vec<String> = times
        .as_flattened()
        .iter()
        .map(|t| format!("{t:.1}"))
        .collect();
    let [a, b, d, e, f, h] = &shown[..] else {
        unreachable!()
    };
    print([name, a, b, d, e, f, h]);
}
