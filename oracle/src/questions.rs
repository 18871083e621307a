//! Random questions of a family, dense in corner values, of the stated domain and of arguments outside it.
use crate::sheet::{self, fields, put_number, Fields, Step};
use crate::words::{hex, listed};

/// A small generator of its own (splitmix64), so that a seed gives the same questions everywhere.
pub struct Random(u64);

impl Random {
    pub fn new(seed: u64) -> Random {
        Random(seed.wrapping_mul(0x9E37_79B9_7F4A_7C15) ^ 0x5851_F42D_4C95_7F2D)
    }

    pub fn next(&mut self) -> u64 {
        self.0 = self.0.wrapping_add(0x9E37_79B9_7F4A_7C15);
        let mut z = self.0;
        z = (z ^ (z >> 30)).wrapping_mul(0xBF58_476D_1CE4_E5B9);
        z = (z ^ (z >> 27)).wrapping_mul(0x94D0_49BB_1331_11EB);
        z ^ (z >> 31)
    }

    pub fn below(&mut self, n: u64) -> u64 {
        self.next() % n
    }

    /// True once in n times.
    pub fn once_in(&mut self, n: u64) -> bool {
        self.below(n) == 0
    }

    pub fn pick<T: Copy>(&mut self, from: &[T]) -> T {
        from[self.below(from.len() as u64) as usize]
    }

    /// A number from low to high.
    pub fn between(&mut self, low: i64, high: i64) -> i64 {
        let width = (i128::from(high) - i128::from(low) + 1) as u128;
        let offset = u128::from(self.next()) % width;
        (i128::from(low) + offset as i128) as i64
    }
}

pub const CORNERS: [i64; 27] = [
    i64::MIN,
    i64::MIN + 1,
    i64::MIN + 2,
    -(1 << 62) - 1,
    -(1 << 62),
    -(1 << 32),
    -(1 << 31),
    -6,
    -3,
    -2,
    -1,
    0,
    1,
    2,
    3,
    4,
    6,
    (1 << 31) - 1,
    1 << 31,
    1 << 32,
    3037000499,
    3037000500,
    (1 << 62) - 1,
    1 << 62,
    (1 << 62) + 1,
    i64::MAX - 1,
    i64::MAX,
];

pub fn number(r: &mut Random) -> i64 {
    match r.below(10) {
        0..=3 => r.pick(&CORNERS),
        4 => r.pick(&CORNERS).wrapping_add(r.between(-3, 3)),
        5 | 6 => r.between(-20, 20),
        7 => (r.next() as i64) >> r.below(63),
        8 => r.pick(&[2, 3, 5, 7, 11, 13]) * r.pick(&[2, 3, 5, 7, 11, 13, -1, -2]) * r.between(-9, 9),
        _ => r.next() as i64,
    }
}

// ---------------------------------------------------------------- values

type Pair = (i64, i64);

fn interval(r: &mut Random) -> Pair {
    let (a, b) = (number(r), number(r));
    match r.below(20) {
        0 => (i64::MAX, i64::MIN),
        1 => (a, b),
        2 => (a.max(b), a.min(b)),
        3 => (i64::MIN, i64::MAX),
        4 => (a, i64::MAX),
        5 => (i64::MIN, a),
        6..=8 => (a, a),
        9..=11 => r.pick(&[(0, 0), (1, 1), (0, 1)]),
        _ => (a.min(b), a.max(b)),
    }
}

/// A second interval, now and then one that touches or holds the first.
fn interval_beside(r: &mut Random, x: Pair) -> Pair {
    match r.below(12) {
        0 => x,
        1 => (x.1, x.1.max(number(r))),
        2 => (x.0.min(number(r)), x.0),
        3 => (x.1.saturating_add(1), i64::MAX),
        4 => (x.0.saturating_sub(1), x.1),
        5 => (x.0, x.1.saturating_add(1)),
        6 => (x.0, x.0),
        _ => interval(r),
    }
}

fn modulus(r: &mut Random) -> i64 {
    match r.below(8) {
        0 | 1 => 0,
        2 => 1,
        3 => r.between(2, 12),
        4 => r.pick(&[
            1 << 31,
            1 << 32,
            1 << 61,
            1 << 62,
            (1 << 62) + 1,
            i64::MAX - 1,
            i64::MAX,
            3037000500,
        ]),
        5 => (r.next() >> 1 >> r.below(62)) as i64,
        6 => r.pick(&[2, 3, 5, 7, 30]) * r.between(1, 60),
        _ => number(r).unsigned_abs().min(i64::MAX as u64) as i64,
    }
}

/// A constant that a modulus allows, canonical or below that.
fn constant(r: &mut Random, m: i64) -> i64 {
    if m == 0 {
        return number(r);
    }
    match r.below(8) {
        0 => m - 1,
        1 => -m,
        2 => (-m).saturating_sub(r.between(0, 3)),
        3 => 1 - m,
        4 => number(r).min(m - 1),
        5 => i64::MIN,
        _ => number(r).rem_euclid(m),
    }
}

fn congruence(r: &mut Random) -> Pair {
    match r.below(24) {
        0 => (number(r), number(r)),
        1 => {
            let m = modulus(r);
            (m.saturating_add(r.between(0, 2)), m)
        }
        2 | 3 => (1, 1),
        4 => (0, 1),
        5 => (0, 0),
        6 => (1, 0),
        _ => {
            let m = modulus(r);
            (constant(r, m), m)
        }
    }
}

/// A second congruence, now and then one that has to do with the first.
fn congruence_beside(r: &mut Random, (c, m): Pair) -> Pair {
    let near = |m: i64, d: i64| if m > 0 { (d.rem_euclid(m), m) } else { (d, m) };
    match r.below(12) {
        0 => (c, m),
        1 => near(m, c.wrapping_add(r.between(-2, 2))),
        2 => near(m.saturating_mul(r.between(2, 6)), c),
        3 => near(modulus(r), c),
        4 => (c.wrapping_add(m.wrapping_mul(r.between(-3, 3))), 0),
        5 => (number(r), 0),
        6 => (if m > 0 && c < 0 { c } else { -c.max(-i64::MAX) }, m),
        _ => congruence(r),
    }
}

pub const SIGNS: [&str; 8] = [
    "Top", "Bottom", "Negative", "Zero", "Positive", "NonNeg", "NonZero", "NonPos",
];

// ---------------------------------------------------------------- families

/// What an operation takes.
#[derive(Clone, Copy, PartialEq, Eq)]
pub enum Takes {
    Nothing,
    Number,
    TwoNumbers,
    Sign,
    TwoSigns,
    TwoSignsAndTruth,
    Interval,
    TwoIntervals,
    Congruence,
    FreePair,
    TwoCongruences,
}

pub type Operation = (&'static str, Takes);

pub const NUMBER: &[Operation] = &[("number gcd", Takes::TwoNumbers), ("number lcm", Takes::TwoNumbers)];

pub const SIGN: &[Operation] = &[
    ("sign of_number", Takes::Number),
    ("sign join", Takes::TwoSigns),
    ("sign meet", Takes::TwoSigns),
    ("sign partial_cmp", Takes::TwoSigns),
    ("sign add", Takes::TwoSigns),
    ("sign neg", Takes::Sign),
    ("sign sub", Takes::TwoSigns),
    ("sign mul", Takes::TwoSigns),
    ("sign div", Takes::TwoSigns),
    ("sign rem", Takes::TwoSigns),
    ("sign logical_eq", Takes::TwoSignsAndTruth),
    ("sign logical_and", Takes::TwoSigns),
    ("sign logical_or", Takes::TwoSigns),
    ("sign logical_not", Takes::Sign),
    ("sign strict_cmp", Takes::TwoSigns),
    ("sign weak_cmp", Takes::TwoSigns),
    ("sign widen", Takes::TwoSigns),
    ("sign narrow", Takes::TwoSigns),
    ("sign top", Takes::Nothing),
    ("sign bottom", Takes::Nothing),
];

/// `sign of_interval` stands here, since it needs the intervals.
pub const INTERVAL: &[Operation] = &[
    ("sign of_interval", Takes::Interval),
    ("interval of_number", Takes::Number),
    ("interval of_sign", Takes::Sign),
    ("interval greater", Takes::Number),
    ("interval smaller", Takes::Number),
    ("interval singleton", Takes::Interval),
    ("interval logical_and", Takes::TwoIntervals),
    ("interval logical_or", Takes::TwoIntervals),
    ("interval logical_not", Takes::Interval),
    ("interval strict_cmp", Takes::TwoIntervals),
    ("interval weak_cmp", Takes::TwoIntervals),
    ("interval equals", Takes::TwoIntervals),
    ("interval may_equal_when", Takes::TwoIntervals),
    ("interval maybe_less_when", Takes::TwoIntervals),
    ("interval maybe_le_when", Takes::TwoIntervals),
    ("interval partial_cmp", Takes::TwoIntervals),
    ("interval join", Takes::TwoIntervals),
    ("interval meet", Takes::TwoIntervals),
    ("interval widen", Takes::TwoIntervals),
    ("interval narrow", Takes::TwoIntervals),
    ("interval add", Takes::TwoIntervals),
    ("interval neg", Takes::Interval),
    ("interval sub", Takes::TwoIntervals),
    ("interval mul", Takes::TwoIntervals),
    ("interval rem", Takes::TwoIntervals),
    ("interval top", Takes::Nothing),
    ("interval bottom", Takes::Nothing),
];

pub const CONGRUENCE: &[Operation] = &[
    ("congruence from", Takes::FreePair),
    ("congruence singleton", Takes::Congruence),
    ("congruence disjoint", Takes::TwoCongruences),
    ("congruence equals", Takes::TwoCongruences),
    ("congruence logical_and", Takes::TwoCongruences),
    ("congruence logical_or", Takes::TwoCongruences),
    ("congruence logical_not", Takes::Congruence),
    ("congruence strict_cmp", Takes::TwoCongruences),
    ("congruence partial_cmp", Takes::TwoCongruences),
    ("congruence join", Takes::TwoCongruences),
    ("congruence meet", Takes::TwoCongruences),
    ("congruence widen", Takes::TwoCongruences),
    ("congruence narrow", Takes::TwoCongruences),
    ("congruence neg", Takes::Congruence),
    ("congruence add", Takes::TwoCongruences),
    ("congruence sub", Takes::TwoCongruences),
    ("congruence mul", Takes::TwoCongruences),
    ("congruence div", Takes::TwoCongruences),
    ("congruence top", Takes::Nothing),
    ("congruence bottom", Takes::Nothing),
];

pub const TRANSFER: &[Operation] = &[
    ("transfer interval binary", Takes::TwoIntervals),
    ("transfer congruence binary", Takes::TwoCongruences),
    ("transfer interval unary", Takes::Interval),
    ("transfer congruence unary", Takes::Congruence),
];

pub const MENDED_SIGN: &[Operation] = &[
    ("mended sign weak_cmp", Takes::TwoSigns),
    ("mended sign div", Takes::TwoSigns),
    ("mended sign logical_not", Takes::Sign),
    ("mended sign equals", Takes::TwoSigns),
    ("mended sign less", Takes::TwoSigns),
    ("mended sign greater", Takes::TwoSigns),
    ("mended sign less_or_equal", Takes::TwoSigns),
    ("mended sign greater_or_equal", Takes::TwoSigns),
];

pub const MENDED_INTERVAL: &[Operation] = &[
    ("mended interval neg", Takes::Interval),
    ("mended interval add", Takes::TwoIntervals),
    ("mended interval sub", Takes::TwoIntervals),
    ("mended interval mul", Takes::TwoIntervals),
    ("mended interval div", Takes::TwoIntervals),
    ("mended interval rem", Takes::TwoIntervals),
    ("mended interval narrow", Takes::TwoIntervals),
    ("mended interval equals", Takes::TwoIntervals),
    ("mended interval less", Takes::TwoIntervals),
    ("mended interval greater", Takes::TwoIntervals),
    ("mended interval less_or_equal", Takes::TwoIntervals),
    ("mended interval greater_or_equal", Takes::TwoIntervals),
];

pub const MENDED_CONGRUENCE: &[Operation] = &[
    ("mended congruence neg", Takes::Congruence),
    ("mended congruence add", Takes::TwoCongruences),
    ("mended congruence sub", Takes::TwoCongruences),
    ("mended congruence mul", Takes::TwoCongruences),
    ("mended congruence div", Takes::TwoCongruences),
    ("mended congruence join", Takes::TwoCongruences),
    ("mended congruence meet", Takes::TwoCongruences),
    ("mended congruence widen", Takes::TwoCongruences),
    ("mended congruence disjoint", Takes::TwoCongruences),
    ("mended congruence partial_cmp", Takes::TwoCongruences),
    ("mended congruence equals", Takes::TwoCongruences),
    ("mended congruence less", Takes::TwoCongruences),
    ("mended congruence greater", Takes::TwoCongruences),
    ("mended congruence less_or_equal", Takes::TwoCongruences),
    ("mended congruence greater_or_equal", Takes::TwoCongruences),
];

pub fn operations(family: &str) -> Option<&'static [Operation]> {
    Some(match family {
        "number" => NUMBER,
        "sign" => SIGN,
        "interval" => INTERVAL,
        "congruence" => CONGRUENCE,
        "transfer" => TRANSFER,
        "mended-sign" => MENDED_SIGN,
        "mended-interval" => MENDED_INTERVAL,
        "mended-congruence" => MENDED_CONGRUENCE,
        _ => return None,
    })
}

fn arguments(r: &mut Random, takes: Takes) -> String {
    match takes {
        Takes::Nothing => String::new(),
        Takes::Number => listed(&[number(r)]),
        Takes::TwoNumbers => {
            let a = number(r);
            let b = match r.below(8) {
                0 => a,
                1 => a.wrapping_mul(r.between(-5, 5)),
                _ => number(r),
            };
            listed(&[a, b])
        }
        Takes::Sign => listed(&[r.pick(&SIGNS)]),
        Takes::TwoSigns => listed(&[r.pick(&SIGNS), r.pick(&SIGNS)]),
        Takes::TwoSignsAndTruth => listed(&[r.pick(&SIGNS), r.pick(&SIGNS), r.pick(&["true", "false"])]),
        Takes::Interval => {
            let x = interval(r);
            listed(&[x.0, x.1])
        }
        Takes::TwoIntervals => {
            let x = interval(r);
            let y = interval_beside(r, x);
            listed(&[x.0, x.1, y.0, y.1])
        }
        Takes::Congruence => {
            let x = congruence(r);
            listed(&[x.0, x.1])
        }
        Takes::FreePair => {
            let x = if r.once_in(3) {
                (number(r), number(r))
            } else {
                congruence(r)
            };
            listed(&[x.0, x.1])
        }
        Takes::TwoCongruences => {
            let x = congruence(r);
            let y = congruence_beside(r, x);
            listed(&[x.0, x.1, y.0, y.1])
        }
    }
}

/// A transfer's operator: mostly one of its own, now and then the other shape's or none at all.
fn operator(r: &mut Random, unary: bool) -> i64 {
    match r.below(16) {
        0 => r.pick(&[i64::MIN, -1, 0, 1, 16, 17, 256, 258, i64::MAX]),
        1 => r.between(2, 15),
        _ if unary => r.between(14, 15),
        _ => r.between(2, 13),
    }
}

/// A question that went wrong in one place.
fn damaged(r: &mut Random, line: String) -> String {
    let at = r.below(line.len() as u64 + 1) as usize;
    let mut bytes = line.into_bytes();
    match r.below(6) {
        0 => bytes.truncate(at),
        1 => bytes.insert(at, b' '),
        2 => bytes.insert(at, r.pick(&[b'-', b'+', b'0', b'9', b'a', b'\t', b'_'])),
        3 => {
            if at < bytes.len() {
                bytes.remove(at);
            }
        }
        4 => bytes.extend_from_slice(b" 1"),
        _ => bytes.extend_from_slice(b" "),
    }
    String::from_utf8(bytes).unwrap()
}

/// The k-th question of a family; its operations take turns, and one question in 64 is damaged.
pub fn question(family: &str, k: u64, r: &mut Random) -> Option<String> {
    let line = if family == "sheet" {
        let line = sheet_question(r);
        if r.once_in(16) {
            line.to_lowercase()
        } else {
            line
        }
    } else if let Some(ends) = crate::sized::named(family) {
        ends.question(k, r)
    } else {
        let all = operations(family)?;
        let (name, takes) = all[(k % all.len() as u64) as usize];
        let number = match family {
            "transfer" => listed(&[operator(r, name.ends_with("unary"))]),
            _ => String::new(),
        };
        format!("{name}{number}{}", arguments(r, takes))
    };
    Some(if r.once_in(64) { damaged(r, line) } else { line })
}

// ---------------------------------------------------------------- sheets

/// The ends of an input: often small, as a kitchen's are.
fn input(r: &mut Random) -> Pair {
    let (a, b) = match r.below(8) {
        0 => (number(r), number(r)),
        1 => (0, 1),
        2 => (number(r), i64::MAX),
        3 => {
            let n = number(r);
            (n, n)
        }
        _ => (r.between(-12, 12), r.between(-12, 1000)),
    };
    (a.min(b), a.max(b))
}

/// A sheet of n steps; truths are kept apart, so that logical steps are mostly in order.
pub fn steps(r: &mut Random, n: usize) -> Vec<Step> {
    let mut made: Vec<Step> = Vec::new();
    let mut truths: Vec<i64> = Vec::new();
    for k in 0..n {
        let any = |r: &mut Random| {
            if r.once_in(3) {
                k as i64 - 1 - r.below(k.min(4) as u64) as i64
            } else {
                r.below(k as u64) as i64
            }
        };
        let truth = |r: &mut Random, truths: &[i64]| {
            if truths.is_empty() || r.once_in(24) {
                r.below(k as u64) as i64
            } else {
                r.pick(truths)
            }
        };
        let kind = if k == 0 { r.below(2) } else { r.below(24) };
        // a logical step needs a truth before it
        let kind = if truths.is_empty() && matches!(kind, 8 | 9 | 14 | 16 | 19) && !r.once_in(24) {
            22
        } else {
            kind
        };
        let step = match kind {
            0 | 17 => [0, if r.once_in(4) { number(r) } else { r.between(-9, 300) }, 0, 0],
            1 | 18 => {
                let (low, high) = input(r);
                [1, low, high, 0]
            }
            2..=6 => [kind as i64, any(r), any(r), 0],
            7 | 10..=13 => [kind as i64, any(r), any(r), 0],
            8 | 9 => [kind as i64, truth(r, &truths), truth(r, &truths), 0],
            14 => [14, truth(r, &truths), 0, 0],
            15 => [15, any(r), 0, 0],
            16 | 19 => [16, truth(r, &truths), any(r), any(r)],
            20 => [0, r.pick(&[0, 1]), 0, 0],
            21 => [2, any(r), any(r), 0],
            22 => [r.pick(&[7, 10, 11, 12, 13]), any(r), any(r), 0],
            _ => [4, any(r), any(r), 0],
        };
        if matches!(step[0], 7..=14) || matches!(step, [0, 0 | 1, ..] | [1, 0, 0 | 1, _]) {
            truths.push(k as i64);
        }
        made.push(step);
    }
    made
}

fn many(r: &mut Random) -> usize {
    match r.below(40) {
        0 => 0,
        1 => r.pick(&[255, 256]),
        2 => r.between(60, 254) as usize,
        3..=12 => r.between(12, 40) as usize,
        _ => r.between(1, 12) as usize,
    }
}

pub fn written(steps: &[Step]) -> Vec<u8> {
    sheet::write(&steps.concat()).unwrap()
}

/// Inputs inside their ranges.
pub fn inputs(r: &mut Random, steps: &[Step]) -> Vec<i64> {
    let ends = steps.iter().filter(|s| s[0] == 1);
    ends.map(|s| match r.below(4) {
        0 => s[1],
        1 => s[2],
        _ => r.between(s[1], s[2]),
    })
    .collect()
}

/// A number in a longer form than its shortest, or one too long or too large.
fn long_form(r: &mut Random, n: u64) -> Vec<u8> {
    let mut out = Vec::new();
    put_number(&mut out, n);
    match r.below(4) {
        0 => return [vec![0xFF; 9], vec![r.pick(&[0x00, 0x01, 0x02, 0x7F, 0x80, 0x81, 0xFF])]].concat(),
        1 => return vec![0x80; r.between(1, 11) as usize],
        _ => (),
    }
    *out.last_mut().unwrap() |= 0x80;
    for _ in 0..r.below(9) {
        out.push(0x80);
    }
    out.push(0x00);
    out
}

/// The bytes of a sheet with one number of it put in a form of its own.
fn with_form(r: &mut Random, steps: &[Step]) -> Vec<u8> {
    let mut numbers: Vec<u64> = vec![steps.len() as u64];
    for s in steps {
        numbers.push(s[0] as u64);
        match fields(s[0] as u64).unwrap() {
            Fields::Constant => numbers.push(sheet::fold(s[1])),
            Fields::Input => numbers.extend([sheet::fold(s[1]), sheet::fold(s[2])]),
            Fields::Operands(many) => numbers.extend(s[1..1 + many].iter().map(|n| *n as u64)),
        }
    }
    let at = r.below(numbers.len() as u64) as usize;
    let mut out = Vec::new();
    for (k, n) in numbers.iter().enumerate() {
        if k == at {
            if r.once_in(2) {
                out.extend(long_form(r, *n));
            } else {
                let other = r.pick(&[0, 1, 16, 17, 127, 128, 255, 256, 257, 16384, u64::MAX]);
                put_number(&mut out, other);
            }
        } else {
            put_number(&mut out, *n);
        }
    }
    out
}

/// Bytes that are no sheet, or hardly one.
fn broken(r: &mut Random, steps: &[Step]) -> Vec<u8> {
    let mut bytes = written(steps);
    match r.below(7) {
        0 => bytes.truncate(r.below(bytes.len() as u64 + 1) as usize),
        1 => {
            for _ in 0..=r.below(3) {
                bytes.push(r.next() as u8);
            }
        }
        2 => {
            let at = r.below(bytes.len() as u64) as usize;
            bytes[at] = r.next() as u8;
        }
        3 => {
            let at = r.below(bytes.len() as u64) as usize;
            bytes[at] ^= 1 << r.below(8);
        }
        4 => {
            bytes = (0..r.below(24))
                .map(|_| r.next() as u8 & r.pick(&[0x03, 0x1F, 0xFF]))
                .collect()
        }
        _ => bytes = with_form(r, steps),
    }
    bytes
}

/// The numbers of a sheet with something wrong in them.
fn spoiled(r: &mut Random, steps: &[Step]) -> Vec<i64> {
    let mut numbers = steps.concat();
    for _ in 0..=r.below(2) {
        match r.below(4) {
            0 => numbers.push(r.pick(&[0, 1])),
            1 => {
                numbers.pop();
            }
            _ if numbers.is_empty() => numbers.push(0),
            _ => {
                let at = r.below(numbers.len() as u64) as usize;
                numbers[at] = if r.once_in(2) { r.between(-1, 18) } else { number(r) };
            }
        }
    }
    numbers
}

fn sheet_question(r: &mut Random) -> String {
    let n = many(r);
    let steps = steps(r, n);
    match r.below(13) {
        0 => format!("sheet read {}", hex(&written(&steps))),
        1..=3 => format!("sheet read {}", hex(&broken(r, &steps))),
        4 => format!("sheet write{}", listed(&steps.concat())),
        5 if r.once_in(24) => format!("sheet write{}", listed(&[0; 1028])),
        5 => format!("sheet write{}", listed(&spoiled(r, &steps))),
        6 => {
            let mut given = inputs(r, &steps);
            match r.below(3) {
                0 => given.push(number(r)),
                1 => drop(given.pop()),
                _ => {
                    if let Some(n) = given.first_mut() {
                        *n = number(r);
                    }
                }
            }
            format!("sheet run {}{}", hex(&written(&steps)), listed(&given))
        }
        7 if r.once_in(4) => format!("sheet run {}{}", hex(&broken(r, &steps)), listed(&inputs(r, &steps))),
        10 if r.once_in(4) => format!("sheet check {}", hex(&broken(r, &steps))),
        10..=12 => format!("sheet check {}", hex(&written(&steps))),
        _ => format!("sheet run {}{}", hex(&written(&steps)), listed(&inputs(r, &steps))),
    }
}

/// A line `HEX n ..`: a sheet for the programs that check and run one, and inputs.
pub fn sheet_and_inputs(r: &mut Random) -> String {
    let n = many(r);
    let steps = steps(r, n);
    let bytes = if r.once_in(6) {
        broken(r, &steps)
    } else {
        written(&steps)
    };
    let mut given = inputs(r, &steps);
    if r.once_in(12) {
        given.push(0);
    }
    format!("{}{}", hex(&bytes), listed(&given))
}
