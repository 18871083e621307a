//! The oracle: the published Rust answers the questions of `ask`, and a model of document 01 those that the Rust doesn't know.
#![allow(dead_code)]

#[path = "published/domains.rs"]
mod domains;
mod lists;
mod mended;
mod model;
mod ported;
mod published;
mod questions;
mod selftest;
mod sheet;
mod sized;
mod words;

use std::io::{self, BufRead, Read, Write};

/// The answer to a question, or that it isn't understood.
fn answer(line: &[u8]) -> String {
    let known = if line.len() > words::LONGEST {
        None
    } else {
        asked(&words::words(line))
    };
    known.unwrap_or_else(|| words::NOT_UNDERSTOOD.to_string())
}

fn asked(words: &[&[u8]]) -> Option<String> {
    let (family, rest) = words.split_first()?;
    match *family {
        b"number" => ported::number_answer(rest),
        b"sign" => ported::sign_answer(rest),
        b"interval" => ported::interval_answer(rest),
        b"congruence" => ported::congruence_answer(rest),
        b"transfer" => ported::transfer_answer(rest),
        b"mended" => mended::mended_answer(model::W64, rest),
        b"at" => mended::sized_answer(rest),
        b"sheet" => sheet::sheet_answer(rest),
        _ => None,
    }
}

/// Each line of standard input, without its end; the last one needs none.
fn lines(mut work: impl FnMut(&[u8])) {
    let mut input = io::stdin().lock();
    let mut line = Vec::new();
    while input.read_until(b'\n', &mut line).unwrap() > 0 {
        if line.last() == Some(&b'\n') {
            line.pop();
        }
        work(&line);
        line.clear();
    }
}

fn usage() -> ! {
    eprintln!(
        "usage: oracle answer                    answers the questions on standard input, a line each\n\
         \x20      oracle questions FAMILY SEED N   writes N random questions of a family\n\
         \x20      oracle list FAMILY|bad           writes the questions of a fixed list\n\
         \x20      oracle check                     the check of the sheet on standard input, as check_sheet prints it\n\
         \x20      oracle run N..                   its run on these inputs, as run_sheet prints it\n\
         \x20      oracle sheets SEED N             writes N lines HEX N..: random sheets with inputs\n\
         \x20      oracle texts                     check and run of each such line on standard input\n\
         \x20      oracle selftest                  holds the model to the Rust, to sets by counting, and to document 01's numbers"
    );
    std::process::exit(2)
}

fn parsed<T: std::str::FromStr>(word: &str) -> T {
    word.parse().unwrap_or_else(|_| usage())
}

fn main() {
    let given: Vec<String> = std::env::args().skip(1).collect();
    let given: Vec<&str> = given.iter().map(String::as_str).collect();
    let mut out = io::BufWriter::new(io::stdout().lock());
    ported::silence();
    match given.as_slice() {
        ["answer"] => lines(|line| writeln!(out, "{}", answer(line)).unwrap()),
        ["questions", family, seed, n] => {
            let family = family.replace(' ', "-");
            let mut r = questions::Random::new(parsed(seed));
            for k in 0..parsed(n) {
                writeln!(
                    out,
                    "{}",
                    questions::question(&family, k, &mut r).unwrap_or_else(|| usage())
                )
                .unwrap();
            }
        }
        ["list", family] => {
            let family = family.replace(' ', "-");
            let list = if family == "bad" {
                Some(lists::bad())
            } else {
                lists::list(&family)
            };
            for line in list.unwrap_or_else(|| usage()) {
                writeln!(out, "{line}").unwrap();
            }
        }
        ["check"] => {
            let mut bytes = Vec::new();
            io::stdin().read_to_end(&mut bytes).unwrap();
            write!(out, "{}", sheet::check_text(&bytes)).unwrap();
        }
        ["run", inputs @ ..] => {
            let mut bytes = Vec::new();
            io::stdin().read_to_end(&mut bytes).unwrap();
            let inputs: Vec<i64> = inputs.iter().map(|w| parsed(w)).collect();
            write!(out, "{}", sheet::run_text(&bytes, &inputs)).unwrap();
        }
        ["sheets", seed, n] => {
            let mut r = questions::Random::new(parsed(seed));
            for _ in 0..parsed(n) {
                writeln!(out, "{}", questions::sheet_and_inputs(&mut r)).unwrap();
            }
        }
        ["texts"] => lines(|line| {
            let (bytes, inputs) = sheet::sheet_line(line).unwrap_or_else(|| usage());
            write!(out, "{}{}", sheet::check_text(&bytes), sheet::run_text(&bytes, &inputs)).unwrap();
        }),
        ["selftest"] => {
            let (passed, failed) = selftest::all();
            writeln!(out, "{passed} agreed, {failed} didn't").unwrap();
            out.flush().unwrap();
            std::process::exit(if failed == 0 { 0 } else { 1 });
        }
        _ => usage(),
    }
}
