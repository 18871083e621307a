//! Asks the library and the published Rust the same questions: whether they agree, and at what price.
#![allow(dead_code)]

extern crate self as number_theory; // the stand-in takes the place of that crate
#[path = "../oracle/src/published/domains.rs"]
mod domains;
mod inputs;
mod rows;
mod sheets;
#[path = "../oracle/src/number_theory.rs"]
mod theory;
mod twins;

use inputs::Random;
use rows::{no_four, no_two, rows, Call, Input, Row};
use std::panic::{catch_unwind, set_hook, AssertUnwindSafe};
use std::time::Instant;
pub use theory::NumberTheory;

const KEPT: i64 = 77;

/// The refusal that a panic of the Rust stands for: 2 a number that doesn't fit, 3 the assertion of `from`.
fn refusal(payload: Box<dyn std::any::Any + Send>) -> u8 {
    let message = match payload.downcast_ref::<String>() {
        Some(s) => s.as_str(),
        None => payload.downcast_ref::<&str>().copied().unwrap_or(""),
    };
    if message.contains("with overflow") || message.contains("`Option::unwrap()` on a `None`") {
        2
    } else if message.starts_with("assertion failed: modulus == 0 || constant < modulus") {
        3
    } else {
        panic!("a panic that isn't known: {message}")
    }
}

/// The status and the room after a call.
fn asked(call: Call, x: &Input, length: usize) -> (u8, [i64; 3]) {
    let mut room = [KEPT; 3];
    let status = catch_unwind(AssertUnwindSafe(|| call.on(x, &mut room[..length]))).unwrap_or_else(refusal);
    (status, room)
}

/// What a function has to leave for an input: the Rust's answer, its panic as a refusal, 1 outside the domain.
fn expected(row: &Row, x: &Input) -> (u8, [i64; 3]) {
    if row.in_domain(x) {
        asked(row.rust, x, row.size())
    } else {
        (1, [KEPT; 3])
    }
}

/// In a room that is too short: 16 where there was a value, and nothing is touched.
fn short(answer: (u8, [i64; 3])) -> (u8, [i64; 3]) {
    if answer.0 == 0 {
        (16, [KEPT; 3])
    } else {
        (answer.0, [KEPT; 3])
    }
}

/// Compares n inputs; with checks off the Rust is asked only where nothing is refused.
fn agree(row: &Row, n: usize, seed: u64) {
    let checked = cfg!(debug_assertions);
    let (mut r, mut refused, mut differ) = (Random::new(seed), 0, 0);
    for _ in 0..n {
        let x = row.draw(&mut r);
        let ours = asked(row.ours, &x, row.size());
        refused += u64::from(ours.0 != 0);
        let small = asked(row.ours, &x, row.size() - 1);
        let same = (!checked && ours.0 != 0) || ours == expected(row, &x);
        if !same || small != short(ours) {
            differ += 1;
            if differ <= 3 {
                eprintln!("{} {x:?}: {ours:?}, the Rust {:?}", row.name, expected(row, &x));
            }
        }
    }
    println!("{} {n} {refused} {differ}", row.name);
}

/// N inputs on which neither the function nor the ported one refuses, so that the Rust doesn't panic.
fn draw(row: &Row, n: usize, seed: u64) -> Vec<Input> {
    let mut r = Random::new(seed);
    let mut room = [0; 2];
    let mut all = Vec::with_capacity(n);
    while all.len() < n {
        let x = row.draw(&mut r);
        if row.ours.on(&x, &mut room) == 0 && row.ported.on(&x, &mut room) == 0 {
            all.push(x);
        }
    }
    all
}

#[no_mangle]
#[inline(never)]
fn each(call: Call, all: &[Input]) -> u64 {
    let mut room = [0i64; 2];
    let mut sum = 0u64;
    for x in all {
        sum = sum
            .wrapping_add(call.on(x, &mut room) as u64)
            .wrapping_add(room[0] as u64);
    }
    sum
}

fn called(row: &Row, who: &str) -> Call {
    match (who, row.ours) {
        ("ours", call) => call,
        ("rust", _) => row.rust,
        (_, Call::Two(_)) => Call::Two(no_two),
        (_, Call::Four(_)) => Call::Four(no_four),
    }
}

fn load(path: &str) -> Vec<Input> {
    let bytes = std::fs::read(path).unwrap();
    let (_, all, _) = unsafe { bytes.align_to::<Input>() };
    assert_eq!(all.len() * 32, bytes.len());
    all.to_vec()
}

fn save(path: &str, all: &[Input]) {
    let (_, bytes, _) = unsafe { all.align_to::<u8>() };
    std::fs::write(path, bytes).unwrap();
}

/// The least time of a call, of several passes, in nanoseconds.
fn time(call: Call, all: &[Input]) -> f64 {
    let pass = || {
        let start = Instant::now();
        std::hint::black_box(each(call, all));
        start.elapsed().as_secs_f64() * 1e9 / all.len() as f64
    };
    (0..9).map(|_| pass()).fold(f64::INFINITY, f64::min)
}

/// Checks or runs a sheet so many times, and tells what it answered.
fn sheet(what: &str, kind: &str, steps: u64, times: usize) {
    let (bytes, given) = sheets::sheet(kind, steps);
    let (mut room, mut place, mut status) = (vec![0i64; 1280], 0, 0);
    for _ in 0..times {
        status = match what {
            "check" => sheets::check(&bytes, &mut room, &mut place),
            "run" => sheets::run(&bytes, &given, &mut room, &mut place),
            _ => 0,
        };
    }
    println!("{status} {place} {}", bytes.len());
}

fn main() {
    let words: Vec<String> = std::env::args().skip(1).collect();
    let words: Vec<&str> = words.iter().map(String::as_str).collect();
    let all = rows();
    let row = |name: &str| all.iter().find(|r| r.name == name).expect("no such row");
    set_hook(Box::new(|_| {}));
    match words.as_slice() {
        ["rows"] => all.iter().for_each(|r| println!("{}", r.name)),
        ["agree", name, n, seed] => agree(row(name), n.parse().unwrap(), seed.parse().unwrap()),
        ["draw", name, n, seed, path] => save(path, &draw(row(name), n.parse().unwrap(), seed.parse().unwrap())),
        ["count", name, who, path] => println!("{}", each(called(row(name), who), &load(path))),
        ["time", name, who, path] => println!("{:.2}", time(called(row(name), who), &load(path))),
        ["sheet", what, kind, steps, times] => sheet(what, kind, steps.parse().unwrap(), times.parse().unwrap()),
        _ => {
            eprintln!("usage: rows | agree ROW N SEED | draw ROW N SEED FILE | count ROW ours|rust|none FILE | time ROW ours|rust|none FILE | sheet check|run|none mul|div STEPS TIMES");
            std::process::exit(2)
        }
    }
}
