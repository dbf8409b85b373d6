//! Runs one workload with one implementation, as often as it is told: instructions are counted from outside, as the difference of two run
//! lengths. `bench list` names the workloads, `bench list sizes` those that show how cost grows, `bench list dearest` the hardest ones;
//! `bench time` times the first here and now, both implementations by turns.

mod build;
mod calls;
mod dearest;
mod questions;
mod records;
mod sizes;
mod wide;
mod workloads;

use calls::Once;
use shuuxideg::{plain, proved, Answer, MarcHeading, MatchHeading, Pair, Widen, WriteTable};
use std::time::Instant;

/// The calls of one implementation, reached by pointer, so that neither is inlined into the loop that repeats it.
#[derive(Clone, Copy)]
pub struct Calls {
    pub check_table: fn(&[u8]) -> Answer<()>,
    pub symbol_degree: fn(&[u8], u16, u16) -> Answer<u16>,
    pub arity: fn(&[u8], u16) -> Answer<u8>,
    pub pair: fn(&[u8], usize) -> Answer<Pair>,
    pub heading_degree: fn(&[u8], &[u16], &[u16]) -> Answer<u16>,
    pub subterm: for<'a> fn(&[u8], &'a [u16], usize) -> &'a [u16],
    pub nearer: for<'a> fn(&[u8], &[u16], &'a [u16], &'a [u16]) -> &'a [u16],
    pub match_heading: MatchHeading,
    pub write_table: WriteTable,
    pub widen: Widen,
    pub marc_heading: MarcHeading,
}

static OURS: Calls = Calls {
    check_table: proved::check_table,
    symbol_degree: proved::symbol_degree,
    arity: proved::arity,
    pair: proved::pair,
    heading_degree: proved::heading_degree,
    subterm: proved::subterm,
    nearer: proved::nearer,
    match_heading: proved::match_heading,
    write_table: proved::write_table,
    widen: proved::widen,
    marc_heading: proved::marc_heading,
};

static PLAIN: Calls = Calls {
    check_table: plain::check_table,
    symbol_degree: plain::symbol_degree,
    arity: plain::arity,
    pair: plain::pair,
    heading_degree: plain::heading_degree,
    subterm: plain::subterm,
    nearer: plain::nearer,
    match_heading: plain::match_heading,
    write_table: plain::write_table,
    widen: plain::widen,
    marc_heading: plain::marc_heading,
};

/// The calls as something that the compiler knows nothing about.
fn hidden(calls: &'static Calls) -> Calls {
    unsafe { std::ptr::read_volatile(calls) }
}

/// Something to measure. What it asks about is made only when it is run.
pub struct Workload {
    pub name: String,
    pub title: String,
    /// How often it is run in one round: enough to see, for a counter and for a clock.
    pub times: usize,
    pub make: Box<dyn FnOnce() -> Once>,
}

impl Workload {
    pub fn new(name: &str, title: &str, times: usize, make: impl FnOnce() -> Once + 'static) -> Self {
        Workload { name: name.into(), title: title.into(), times, make: Box::new(make) }
    }
}

fn run(once: &mut Once, calls: &Calls, times: usize) -> u64 {
    (0..times).fold(0, |sum: u64, _| sum.wrapping_mul(31).wrapping_add(once(calls)))
}

/// The middle one of several rounds, in nanoseconds a call. The rounds of both implementations alternate.
fn time(once: &mut Once, times: usize) -> (f64, f64) {
    let mut rounds = [Vec::new(), Vec::new()];
    for _ in 0..21 {
        for (calls, taken) in [&OURS, &PLAIN].iter().zip(&mut rounds) {
            let begun = Instant::now();
            run(once, &hidden(calls), times);
            taken.push(begun.elapsed().as_nanos() as f64 / times as f64);
        }
    }
    let mut middle = rounds.iter_mut().map(|taken| {
        taken.sort_by(f64::total_cmp);
        taken[taken.len() / 2]
    });
    (middle.next().unwrap(), middle.next().unwrap())
}

fn list(workloads: Vec<Workload>) {
    workloads.iter().for_each(|w| println!("{}\t{}\t{}", w.name, w.times, w.title));
}

fn main() {
    let arguments: Vec<String> = std::env::args().skip(1).collect();
    let words: Vec<&str> = arguments.iter().map(String::as_str).collect();
    match words[..] {
        ["list"] => list(workloads::workloads()),
        ["list", "sizes"] => list(sizes::workloads()),
        ["list", "dearest"] => list(dearest::workloads()),
        ["time"] => {
            for workload in workloads::workloads() {
                let (ours, plain) = time(&mut (workload.make)(), workload.times);
                println!("{}\t{}\t{}\t{}", workload.name, ours, plain, workload.title);
            }
        }
        ["run", name, which @ ("ours" | "plain"), times] => {
            let calls = hidden(if which == "ours" { &OURS } else { &PLAIN });
            let mut all = workloads::workloads().into_iter().chain(sizes::workloads()).chain(dearest::workloads());
            let workload = all.find(|w| w.name == name).expect("no such workload");
            println!("{}", run(&mut (workload.make)(), &calls, times.parse().expect("a number of times")));
        }
        _ => {
            eprintln!("usage: bench list [sizes|dearest] | bench time | bench run WORKLOAD ours|plain TIMES");
            std::process::exit(2);
        }
    }
}
