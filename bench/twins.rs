//! The published Rust behind the signatures of the library, so that both pay the same call. A lent slice is a pointer and a length.
#![allow(improper_ctypes_definitions)]
use crate::domains::{Congruence, Interval, JoinSemiLatticeNoContext, LatticeNoContext};
use number_theory::NumberTheory;

#[inline(always)]
fn put(room: &mut [i64], x: i64, y: i64) -> u8 {
    if room.len() < 2 {
        return 16;
    }
    room[0] = x;
    room[1] = y;
    0
}

/// A congruence by the Rust's own making.
#[inline(always)]
fn congruence(c: i64, m: i64) -> Congruence {
    if c == 1 && m == 1 {
        Congruence::bottom_()
    } else {
        Congruence::from(c, m)
    }
}

#[no_mangle]
#[inline(never)]
pub extern "C-unwind" fn rust_gcd(a: i64, b: i64, room: &mut [i64]) -> u8 {
    let g = a.gcd(b);
    if room.is_empty() {
        return 16;
    }
    room[0] = g;
    0
}

macro_rules! interval {
    ($name:ident, $x:ident, $y:ident, $work:expr) => {
        #[no_mangle]
        #[inline(never)]
        pub extern "C-unwind" fn $name(a: i64, b: i64, c: i64, d: i64, room: &mut [i64]) -> u8 {
            let ($x, $y) = (Interval { min: a, max: b }, Interval { min: c, max: d });
            let v: Interval = $work;
            put(room, v.min, v.max)
        }
    };
}

macro_rules! congruence {
    ($name:ident, $x:ident, $y:ident, $work:expr) => {
        #[no_mangle]
        #[inline(never)]
        pub extern "C-unwind" fn $name(c: i64, m: i64, e: i64, n: i64, room: &mut [i64]) -> u8 {
            let ($x, $y) = (congruence(c, m), congruence(e, n));
            let v: Congruence = $work;
            put(room, v.constant(), v.modulus())
        }
    };
}

interval!(rust_interval_add, x, y, x + y);
interval!(rust_interval_mul, x, y, x * y);
interval!(rust_interval_rem, x, y, x % y);
interval!(rust_interval_join, x, y, x.join_(&y));
congruence!(rust_congruence_join, x, y, x.join_(&y));
congruence!(rust_congruence_mul, x, y, x * y);
congruence!(rust_congruence_meet, x, y, x.meet_(&y));
