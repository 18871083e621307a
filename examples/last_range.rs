//! last_range FILE: checks the sheet in a file by the library, and prints the range of its last step, or why it is refused.
//! The exit status is 0 if it passes, 1 if it is refused, 2 if the file can't be read.
#[path = "../include/tunisaypa.rs"]
mod tunisaypa;

use std::process::exit;
use tunisaypa::{check, shown, Refused, CHECK_ROOM};

fn end(n: i64) -> String {
    match n {
        i64::MAX => "inf".to_string(),
        i64::MIN => "-inf".to_string(),
        _ => n.to_string(),
    }
}

fn refused(r: Refused) -> String {
    let what = if r.number >= 12 { "step" } else { "byte" };
    match r.place {
        Some(place) => format!("refused at {} {} by {}", what, place, r.number),
        None => format!("refused by {}", r.number),
    }
}

fn main() {
    let bytes = std::env::args_os().nth(1).and_then(|name| std::fs::read(name).ok());
    let bytes = bytes.unwrap_or_else(|| {
        eprintln!("last_range: one file that can be read, please");
        exit(2)
    });
    let mut room = [0; CHECK_ROOM];
    match check(&bytes, &mut room) {
        Err(r) => {
            println!("{}", refused(r));
            exit(1)
        }
        Ok(0) => println!("no steps"),
        Ok(steps) => match shown(&room, steps - 1) {
            Some(last) => println!("[{}, {}]", end(last.low), end(last.high)),
            None => unreachable!("a check that passed has put five numbers for each step"),
        },
    }
}
