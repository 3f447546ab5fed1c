//! What an engineer writes by hand with ordinary crates, for figures to stand beside. Nothing of it is a part of the program.
//!
//!     baseline routes N < TABLE    finds the operations of a table's requests N times, and prints how often there was one
//!     baseline memory              a turn of a session in memory: from JSON to CBOR, and from restJson1 to restJson1
//!
//! A table is that of `speeds route`: a line for each operation, a method and a pattern; an empty line; a line for each request, a method and
//! a target.

mod http;
mod rest;
mod routes;
mod rpc;
mod shop;

use std::hint::black_box;
use std::io::Read;

// Nanoseconds that this thread has had of a processor. Giving way brings what the system tells up to date.
fn spent() -> u64 {
    std::thread::yield_now();
    let told = std::fs::read_to_string("/proc/thread-self/schedstat").expect("a system that tells");
    told.split(' ').next().and_then(|number| number.parse().ok()).expect("a number")
}

/// Nanoseconds of a call: the least of seven rounds of some 0.1 s or one call.
pub fn time(mut call: impl FnMut()) -> f64 {
    let mut round = |calls: u32| {
        let begun = spent();
        (0..calls).for_each(|_| call());
        (spent() - begun) as f64 / f64::from(calls)
    };
    let calls = (100_000_000.0 / round(10).max(100.0)).ceil() as u32;
    (0..7).map(|_| round(calls)).fold(f64::MAX, f64::min)
}

pub fn tell(what: &str, nanoseconds: f64) {
    println!("{what:52} {nanoseconds:12.0} ns");
}

fn found(turns: u32) -> Option<u64> {
    let mut text = String::new();
    std::io::stdin().read_to_string(&mut text).ok()?;
    let (patterns, requests) = text.split_once("\n\n")?;
    let router = routes::Router::new(patterns.lines().filter_map(|line| line.split_once(' ')));
    let requests: Vec<(&str, &str)> = requests.lines().filter_map(|line| line.split_once(' ')).collect();
    let mut found = 0;
    for _ in 0..turns {
        for (method, target) in &requests {
            found += u64::from(black_box(router.find(method, target)).is_some());
        }
    }
    Some(found)
}

fn memory() {
    for (title, body) in shop::bodies() {
        rpc::measure(title, &body);
        rest::measure(title, &body);
    }
}

fn main() {
    let words: Vec<String> = std::env::args().skip(1).collect();
    let words: Vec<&str> = words.iter().map(String::as_str).collect();
    match words[..] {
        ["routes", turns] => println!("{}", found(turns.parse().expect("a number of turns")).expect("a table")),
        ["memory"] => memory(),
        _ => eprintln!("baseline routes N < TABLE | memory"),
    }
}
