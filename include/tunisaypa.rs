//! Tunisaypa for Rust, on x86-64: safe functions over those of tunisaypa.h, which tells what each leaves. `tools/staticlib` makes the
//! library. Take this file in as a module, in edition 2021 or an earlier one, and link the library:
//!
//!     #[path = "include/tunisaypa.rs"]
//!     mod tunisaypa;
//!
//!     rustc --edition 2021 -L native=target/staticlib -l static=export program.rs
#![allow(dead_code)]

/// The most steps and bytes of a sheet, the numbers of a check for a step, and room for the check of any sheet.
pub const STEPS: usize = 256;
pub const SHEET_BYTES: usize = 5378;
pub const SHOWN: usize = 5;
pub const CHECK_ROOM: usize = SHOWN * STEPS;

/// The number of a refusal, and where: the step for 12 to 14, the byte for 5 to 11.
#[derive(Clone, Copy, Debug, PartialEq, Eq)]
pub struct Refused {
    pub number: u8,
    pub place: Option<usize>,
}

#[derive(Clone, Copy, Debug, PartialEq, Eq)]
pub enum Sign {
    Top,
    Bottom,
    Negative,
    Zero,
    Positive,
    NonNeg,
    NonZero,
    NonPos,
}

/// What a check shows of a step: every number lies from low to high, differs from the constant by a multiple of the modulus (0: it is the
/// constant), and has the sign.
#[derive(Clone, Copy, Debug, PartialEq, Eq)]
pub struct Shown {
    pub low: i64,
    pub high: i64,
    pub constant: i64,
    pub modulus: i64,
    pub sign: Sign,
}

/// Checks the sheet in the bytes. It passes, with so many steps, and the room has five numbers for each; or it is refused, by 12 to 14 with
/// five numbers in the room for each step before. Room that is too short is refused by 16; CHECK_ROOM is enough.
pub fn check(bytes: &[u8], room: &mut [i64]) -> Result<usize, Refused> {
    placed(|place| unsafe { raw::tunisaypa_check(bytes.as_ptr(), bytes.len(), room.as_mut_ptr(), room.len(), place) })
}

/// Runs the sheet in the bytes on its inputs. It ends, with so many steps, and the room has the number of each; or it stops by 12 to 14, with
/// the numbers of the steps before; or it is refused.
pub fn run(bytes: &[u8], inputs: &[i64], room: &mut [i64]) -> Result<usize, Refused> {
    placed(|place| unsafe {
        raw::tunisaypa_run(
            bytes.as_ptr(),
            bytes.len(),
            inputs.as_ptr(),
            inputs.len(),
            room.as_mut_ptr(),
            room.len(),
            place,
        )
    })
}

/// What a check has put into the room for step k; none if the room doesn't reach so far, or the fifth number is no sign's.
pub fn shown(room: &[i64], k: usize) -> Option<Shown> {
    let start = k.checked_mul(SHOWN)?;
    match *room.get(start..start.checked_add(SHOWN)?)? {
        [low, high, constant, modulus, sign] => Some(Shown {
            low,
            high,
            constant,
            modulus,
            sign: sign_of(sign)?,
        }),
        _ => None,
    }
}

fn sign_of(number: i64) -> Option<Sign> {
    use self::Sign::*;
    let all = [Top, Bottom, Negative, Zero, Positive, NonNeg, NonZero, NonPos];
    all.iter().zip(0..).find(|(_, n)| *n == number).map(|(sign, _)| *sign)
}

/// The greatest common divisor of the absolute values, or the number of the refusal.
pub fn gcd(a: i64, b: i64) -> Result<i64, u8> {
    let mut room = [0];
    match unsafe { raw::tunisaypa_gcd(a, b, room.as_mut_ptr(), room.len()) } {
        0 => Ok(room[0]),
        number => Err(number),
    }
}

/// A call that tells a place; one that it keeps is none.
fn placed(call: impl FnOnce(&mut usize) -> u8) -> Result<usize, Refused> {
    let mut place = usize::MAX;
    match call(&mut place) {
        0 => Ok(place),
        number => Err(Refused {
            number,
            place: Some(place).filter(|p| *p != usize::MAX),
        }),
    }
}

/// Operations on two pairs: an interval's least and greatest number, a congruence's constant and modulus. The answer is such a pair, or the
/// number of the refusal.
macro_rules! operations {
    ($($name:ident $raw:ident)*) => {
        $(
            pub fn $name(x: (i64, i64), y: (i64, i64)) -> Result<(i64, i64), u8> {
                let mut room = [0; 2];
                match unsafe { raw::$raw(x.0, x.1, y.0, y.1, room.as_mut_ptr(), room.len()) } {
                    0 => Ok((room[0], room[1])),
                    number => Err(number),
                }
            }
        )*

        /// The functions of the library, as tunisaypa.h has them.
        pub mod raw {
            extern "C" {
                pub fn tunisaypa_check(bytes: *const u8, count: usize, room: *mut i64, length: usize, place: *mut usize) -> u8;
                pub fn tunisaypa_run(
                    bytes: *const u8,
                    count: usize,
                    inputs: *const i64,
                    many: usize,
                    room: *mut i64,
                    length: usize,
                    place: *mut usize,
                ) -> u8;
                pub fn tunisaypa_gcd(a: i64, b: i64, room: *mut i64, length: usize) -> u8;
                $(pub fn $raw(a: i64, b: i64, c: i64, d: i64, room: *mut i64, length: usize) -> u8;)*
            }
        }
    };
}

operations! {
    interval_add tunisaypa_interval_add
    interval_mul tunisaypa_interval_mul
    interval_rem tunisaypa_interval_rem
    interval_join tunisaypa_interval_join
    mended_interval_add tunisaypa_mended_interval_add
    mended_interval_mul tunisaypa_mended_interval_mul
    mended_interval_rem tunisaypa_mended_interval_rem
    congruence_join tunisaypa_congruence_join
    congruence_mul tunisaypa_congruence_mul
    congruence_meet tunisaypa_congruence_meet
    mended_congruence_join tunisaypa_mended_congruence_join
    mended_congruence_mul tunisaypa_mended_congruence_mul
    mended_congruence_meet tunisaypa_mended_congruence_meet
}
