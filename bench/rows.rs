//! What is measured: each function of the library, and the Rust beside it. A lent slice is a pointer and a length.
#![allow(improper_ctypes, improper_ctypes_definitions)]
use crate::inputs::Random;
use crate::twins::*;

pub type Two = unsafe extern "C-unwind" fn(i64, i64, &mut [i64]) -> u8;
pub type Four = unsafe extern "C-unwind" fn(i64, i64, i64, i64, &mut [i64]) -> u8;

#[derive(Clone, Copy)]
pub enum Call {
    Two(Two),
    Four(Four),
}

#[derive(Clone, Copy, PartialEq)]
pub enum Takes {
    Numbers,
    Intervals,
    Congruences,
}

/// `ours` is the function, `ported` the one that the Rust answers to: itself, unless it is mended.
pub struct Row {
    pub name: &'static str,
    pub takes: Takes,
    pub ours: Call,
    pub ported: Call,
    pub rust: Call,
}

pub type Input = [i64; 4];

extern "C-unwind" {
    fn tunisaypa_gcd(a: i64, b: i64, room: &mut [i64]) -> u8;
}

macro_rules! fours {
    ($($name:ident)*) => {
        extern "C-unwind" {
            $(fn $name(a: i64, b: i64, c: i64, d: i64, room: &mut [i64]) -> u8;)*
        }
    };
}

fours!(tunisaypa_interval_add tunisaypa_interval_mul tunisaypa_interval_rem tunisaypa_interval_join
    tunisaypa_mended_interval_add tunisaypa_mended_interval_mul tunisaypa_mended_interval_rem
    tunisaypa_congruence_join tunisaypa_congruence_mul tunisaypa_congruence_meet
    tunisaypa_mended_congruence_join tunisaypa_mended_congruence_mul tunisaypa_mended_congruence_meet);

#[no_mangle]
#[inline(never)]
pub extern "C-unwind" fn no_two(_: i64, _: i64, _: &mut [i64]) -> u8 {
    0
}

#[no_mangle]
#[inline(never)]
pub extern "C-unwind" fn no_four(_: i64, _: i64, _: i64, _: i64, _: &mut [i64]) -> u8 {
    0
}

fn four(name: &'static str, takes: Takes, ours: Four, ported: Four, rust: Four) -> Row {
    Row {
        name,
        takes,
        ours: Call::Four(ours),
        ported: Call::Four(ported),
        rust: Call::Four(rust),
    }
}

pub fn rows() -> Vec<Row> {
    let gcd = Call::Two(tunisaypa_gcd);
    let i = |name, ours, ported, rust| four(name, Takes::Intervals, ours, ported, rust);
    let c = |name, ours, ported, rust| four(name, Takes::Congruences, ours, ported, rust);
    vec![
        Row {
            name: "gcd",
            takes: Takes::Numbers,
            ours: gcd,
            ported: gcd,
            rust: Call::Two(rust_gcd),
        },
        i(
            "interval_add",
            tunisaypa_interval_add,
            tunisaypa_interval_add,
            rust_interval_add,
        ),
        i(
            "interval_mul",
            tunisaypa_interval_mul,
            tunisaypa_interval_mul,
            rust_interval_mul,
        ),
        i(
            "interval_rem",
            tunisaypa_interval_rem,
            tunisaypa_interval_rem,
            rust_interval_rem,
        ),
        i(
            "interval_join",
            tunisaypa_interval_join,
            tunisaypa_interval_join,
            rust_interval_join,
        ),
        c(
            "congruence_join",
            tunisaypa_congruence_join,
            tunisaypa_congruence_join,
            rust_congruence_join,
        ),
        c(
            "congruence_mul",
            tunisaypa_congruence_mul,
            tunisaypa_congruence_mul,
            rust_congruence_mul,
        ),
        c(
            "congruence_meet",
            tunisaypa_congruence_meet,
            tunisaypa_congruence_meet,
            rust_congruence_meet,
        ),
        i(
            "mended_interval_add",
            tunisaypa_mended_interval_add,
            tunisaypa_interval_add,
            rust_interval_add,
        ),
        i(
            "mended_interval_mul",
            tunisaypa_mended_interval_mul,
            tunisaypa_interval_mul,
            rust_interval_mul,
        ),
        i(
            "mended_interval_rem",
            tunisaypa_mended_interval_rem,
            tunisaypa_interval_rem,
            rust_interval_rem,
        ),
        c(
            "mended_congruence_join",
            tunisaypa_mended_congruence_join,
            tunisaypa_congruence_join,
            rust_congruence_join,
        ),
        c(
            "mended_congruence_mul",
            tunisaypa_mended_congruence_mul,
            tunisaypa_congruence_mul,
            rust_congruence_mul,
        ),
        c(
            "mended_congruence_meet",
            tunisaypa_mended_congruence_meet,
            tunisaypa_congruence_meet,
            rust_congruence_meet,
        ),
    ]
}

impl Row {
    pub fn draw(&self, r: &mut Random) -> Input {
        match self.takes {
            Takes::Numbers => [r.number(), r.number(), 0, 0],
            Takes::Intervals => {
                let ((a, b), (c, d)) = (r.interval(), r.interval());
                [a, b, c, d]
            }
            Takes::Congruences => {
                let ((c, m), (e, n)) = (r.congruence(), r.congruence());
                [c, m, e, n]
            }
        }
    }

    /// Whether the Rust can be asked: it has no value outside the domain.
    pub fn in_domain(&self, x: &Input) -> bool {
        let one = |c: i64, m: i64| m == 0 || (m > 0 && c < m) || (c, m) == (1, 1);
        self.takes != Takes::Congruences || (one(x[0], x[1]) && one(x[2], x[3]))
    }

    /// How many numbers an answer has.
    pub fn size(&self) -> usize {
        if self.takes == Takes::Numbers {
            1
        } else {
            2
        }
    }
}

impl Call {
    #[inline(always)]
    pub fn on(self, x: &Input, room: &mut [i64]) -> u8 {
        match self {
            Call::Two(f) => unsafe { f(x[0], x[1], room) },
            Call::Four(f) => unsafe { f(x[0], x[1], x[2], x[3], room) },
        }
    }
}
