//! Sheets: bytes to steps and back, the run and the check, straight from document 01.
use crate::model::{range, spaced, Comparison, Congruence, Interval, Sign, Width, ALL, W64};
use crate::words::{bytes, hex, listed, number, numbers, refused};

/// Operator, fields, zeros.
pub type Step = [i64; 4];

/// What the fields of an operator are.
#[derive(Clone, Copy, PartialEq, Eq)]
pub enum Fields {
    Constant,
    Input,
    Operands(usize),
}

pub fn fields(operator: u64) -> Option<Fields> {
    match operator {
        0 => Some(Fields::Constant),
        1 => Some(Fields::Input),
        2..=13 => Some(Fields::Operands(2)),
        14 | 15 => Some(Fields::Operands(1)),
        16 => Some(Fields::Operands(3)),
        _ => None,
    }
}

pub const MOST: u64 = 256;

// ---------------------------------------------------------------- reading

/// A refusal at a byte or at a step.
pub type Fault = (usize, u8);

/// The number at a place, and the place after it.
pub fn read_number(bytes: &[u8], at: usize) -> Result<(u64, usize), Fault> {
    let mut n: u128 = 0;
    for k in 0..10 {
        let Some(b) = bytes.get(at + k) else {
            return Err((bytes.len(), 5));
        };
        n += u128::from(b & 0x7F) << (7 * k);
        if b & 0x80 == 0 {
            let shortest = *b != 0 || k == 0;
            return match u64::try_from(n) {
                Ok(n) if shortest => Ok((n, at + k + 1)),
                _ => Err((at, 6)),
            };
        }
    }
    Err((at, 6))
}

pub fn unfold(n: u64) -> i64 {
    let half = (n / 2) as i64;
    if n % 2 == 0 {
        half
    } else {
        -half - 1
    }
}

pub fn fold(n: i64) -> u64 {
    let n = i128::from(n);
    (if n < 0 { -2 * n - 1 } else { 2 * n }) as u64
}

pub fn read(bytes: &[u8]) -> Result<Vec<Step>, Fault> {
    let (count, mut at) = read_number(bytes, 0)?;
    if count > MOST {
        return Err((0, 10));
    }
    let mut steps = Vec::new();
    for k in 0..count {
        let (operator, next) = read_number(bytes, at)?;
        let Some(shape) = fields(operator) else {
            return Err((at, 7));
        };
        at = next;
        let mut step: Step = [operator as i64, 0, 0, 0];
        match shape {
            Fields::Constant => {
                let (n, next) = read_number(bytes, at)?;
                step[1] = unfold(n);
                at = next;
            }
            Fields::Input => {
                let (low, high_at) = read_number(bytes, at)?;
                let (high, next) = read_number(bytes, high_at)?;
                step[1] = unfold(low);
                step[2] = unfold(high);
                if step[1] > step[2] {
                    return Err((high_at, 9));
                }
                at = next;
            }
            Fields::Operands(many) => {
                for place in 0..many {
                    let (n, next) = read_number(bytes, at)?;
                    if n >= k {
                        return Err((at, 8));
                    }
                    step[place + 1] = n as i64;
                    at = next;
                }
            }
        }
        steps.push(step);
    }
    if at < bytes.len() {
        return Err((at, 11));
    }
    Ok(steps)
}

// ---------------------------------------------------------------- writing

pub fn put_number(out: &mut Vec<u8>, n: u64) {
    let mut n = n;
    while n > 0x7F {
        out.push((n & 0x7F) as u8 | 0x80);
        n >>= 7;
    }
    out.push(n as u8);
}

/// The bytes, or a refusal with the step as place if it has one.
pub fn write(numbers: &[i64]) -> Result<Vec<u8>, (Option<usize>, u8)> {
    if numbers.len() % 4 != 0 {
        return Err((None, 1));
    }
    if numbers.len() / 4 > MOST as usize {
        return Err((Some(0), 10));
    }
    let mut out = Vec::new();
    put_number(&mut out, (numbers.len() / 4) as u64);
    for (k, step) in numbers.chunks(4).enumerate() {
        write_step(&mut out, k, step).map_err(|r| (Some(k), r))?;
    }
    Ok(out)
}

fn write_step(out: &mut Vec<u8>, k: usize, step: &[i64]) -> Result<(), u8> {
    let operator = u64::try_from(step[0]).map_err(|_| 7)?;
    let shape = fields(operator).ok_or(7)?;
    let used = match shape {
        Fields::Constant => 1,
        Fields::Input => 2,
        Fields::Operands(many) => many,
    };
    if step[1 + used..].iter().any(|f| *f != 0) {
        return Err(1);
    }
    let values = &step[1..1 + used];
    if shape == Fields::Operands(used) && values.iter().any(|n| *n < 0 || *n >= k as i64) {
        return Err(8);
    }
    if shape == Fields::Input && values[0] > values[1] {
        return Err(9);
    }
    put_number(out, operator);
    for n in values {
        put_number(
            out,
            if shape == Fields::Operands(used) {
                *n as u64
            } else {
                fold(*n)
            },
        );
    }
    Ok(())
}

// ---------------------------------------------------------------- the run

#[derive(PartialEq, Eq, Debug)]
pub enum Run {
    Refused(u8),
    /// The numbers of the steps before it, and the number it stops by.
    Stopped(Vec<i128>, u8),
    Ended(Vec<i128>),
}

/// What an operator other than constant and input does to numbers.
pub fn run_operator(w: Width, operator: i64, x: &[i128]) -> Result<i128, u8> {
    let flag = |b: bool| Ok(b as i128);
    let fit = |n: i128| if w.fits(n) { Ok(n) } else { Err(13) };
    let truths = |many: usize| {
        if x[..many].iter().all(|n| *n == 0 || *n == 1) {
            Ok(())
        } else {
            Err(14)
        }
    };
    match operator {
        2 => fit(x[0] + x[1]),
        3 => fit(x[0] - x[1]),
        4 => fit(x[0] * x[1]),
        5 | 6 if x[1] == 0 => Err(12),
        5 | 6 if x[0] == w.least && x[1] == -1 => Err(13),
        5 => fit(x[0] / x[1]),
        6 => fit(x[0] % x[1]),
        7 => flag(x[0] == x[1]),
        8 => truths(2).and(flag(x[0] == 1 && x[1] == 1)),
        9 => truths(2).and(flag(x[0] == 1 || x[1] == 1)),
        10 => flag(x[0] < x[1]),
        11 => flag(x[0] > x[1]),
        12 => flag(x[0] <= x[1]),
        13 => flag(x[0] >= x[1]),
        14 => truths(1).and(flag(x[0] == 0)),
        15 => Ok(x[0]),
        _ => truths(1).map(|()| if x[0] == 1 { x[1] } else { x[2] }),
    }
}

/// What stands in the earlier entries that a step names.
fn operands<T: Copy>(step: &Step, earlier: &[T]) -> Vec<T> {
    match fields(step[0] as u64) {
        Some(Fields::Operands(many)) => step[1..1 + many].iter().map(|n| earlier[*n as usize]).collect(),
        _ => Vec::new(),
    }
}

pub fn run(w: Width, steps: &[Step], inputs: &[i128]) -> Run {
    let ranges: Vec<Interval> = steps
        .iter()
        .filter(|s| s[0] == 1)
        .map(|s| range(s[1].into(), s[2].into()))
        .collect();
    if ranges.len() != inputs.len() || ranges.iter().zip(inputs).any(|(r, n)| !r.holds(*n)) {
        return Run::Refused(15);
    }
    let mut given = inputs.iter();
    let mut values: Vec<i128> = Vec::new();
    for step in steps {
        let result = match step[0] {
            0 => Ok(step[1].into()),
            1 => Ok(*given.next().unwrap()),
            operator => run_operator(w, operator, &operands(step, &values)),
        };
        match result {
            Ok(n) => values.push(n),
            Err(r) => return Run::Stopped(values, r),
        }
    }
    Run::Ended(values)
}

// ---------------------------------------------------------------- the check

#[derive(Clone, Copy, PartialEq, Eq, Debug)]
pub struct Shown {
    pub range: Interval,
    pub spacing: Congruence,
    pub sign: Sign,
}

impl Shown {
    /// Low, high, constant, modulus, and the sign's number.
    fn numbers(&self) -> [i128; 5] {
        [self.range.min, self.range.max, self.spacing.constant, self.spacing.modulus, self.sign.index()]
    }
}

fn show_constant(n: i128) -> Shown {
    Shown {
        range: range(n, n),
        spacing: spaced(n, 0),
        sign: Sign::of_number(n),
    }
}

fn show_input(low: i128, high: i128) -> Shown {
    let range = range(low, high);
    Shown {
        range,
        spacing: if low == high { spaced(low, 0) } else { ALL },
        sign: range.sign(),
    }
}

fn comparison(operator: i64) -> Option<Comparison> {
    Some(match operator {
        7 => Comparison::Equal,
        10 => Comparison::Less,
        11 => Comparison::Greater,
        12 => Comparison::LessOrEqual,
        13 => Comparison::GreaterOrEqual,
        _ => return None,
    })
}

const BOTH: Interval = Interval { min: 0, max: 1 };

fn show_range(w: Width, operator: i64, x: &[Interval]) -> Result<Interval, u8> {
    let truths = |many: usize| {
        if x[..many].iter().all(|i| i.min >= 0 && i.max <= 1) {
            Ok(())
        } else {
            Err(14)
        }
    };
    let decided = |i: Interval, n: i128| i == range(n, n);
    if let Some(how) = comparison(operator) {
        return Ok(w.interval_compare(how, x[0], x[1]).unwrap());
    }
    match operator {
        2 => w.interval_corners(x[0], x[1], |a, b| a + b).map_err(|_| 13),
        3 => w.interval_corners(x[0], x[1], |a, b| a - b).map_err(|_| 13),
        4 => w.interval_corners(x[0], x[1], |a, b| a * b).map_err(|_| 13),
        5 | 6 if x[1].holds(0) => Err(12),
        5 | 6 if x[0].holds(w.least) && x[1].holds(-1) => Err(13),
        5 => Ok(w.interval_div(x[0], x[1]).unwrap()),
        6 => Ok(w.interval_rem(x[0], x[1]).unwrap()),
        8 => truths(2).map(|()| {
            if decided(x[0], 0) || decided(x[1], 0) {
                range(0, 0)
            } else if decided(x[0], 1) && decided(x[1], 1) {
                range(1, 1)
            } else {
                BOTH
            }
        }),
        9 => truths(2).map(|()| {
            if decided(x[0], 1) || decided(x[1], 1) {
                range(1, 1)
            } else if decided(x[0], 0) && decided(x[1], 0) {
                range(0, 0)
            } else {
                BOTH
            }
        }),
        14 => truths(1).map(|()| {
            if decided(x[0], 1) {
                range(0, 0)
            } else if decided(x[0], 0) {
                range(1, 1)
            } else {
                BOTH
            }
        }),
        15 => Ok(x[0]),
        _ => truths(1).map(|()| chosen(x[0], x[1], x[2], |a, b| range(a.min.min(b.min), a.max.max(b.max)))),
    }
}

/// a's value if the condition's range is [1, 1], b's if [0, 0], else the join.
fn chosen<T: Copy>(condition: Interval, a: T, b: T, join: impl Fn(T, T) -> T) -> T {
    if condition == range(1, 1) {
        a
    } else if condition == range(0, 0) {
        b
    } else {
        join(a, b)
    }
}

fn show_spacing(w: Width, operator: i64, x: &[Shown]) -> Congruence {
    let s: Vec<Congruence> = x.iter().map(|v| v.spacing).collect();
    if let Some(how) = comparison(operator) {
        return s[0].compare(how, s[1]);
    }
    match operator {
        2 => w.congruence_add(s[0], s[1]),
        3 => w.congruence_sub(s[0], s[1]),
        4 => w.congruence_mul(s[0], s[1]),
        5 => w.congruence_div(s[0], s[1]),
        6 => ALL,
        8 => s[0].and(s[1]),
        9 => s[0].or(s[1]),
        14 => s[0].not(),
        15 => s[0],
        _ => chosen(x[0].range, s[1], s[2], |a, b| w.congruence_join(a, b)),
    }
}

fn show_sign(operator: i64, x: &[Shown]) -> Sign {
    let s: Vec<Sign> = x.iter().map(|v| v.sign).collect();
    if let Some(how) = comparison(operator) {
        return s[0].compare(how, s[1]);
    }
    match operator {
        2 => s[0].least(s[1], |a, b| a + b),
        3 => s[0].least(s[1], |a, b| a - b),
        4 => s[0].mul(s[1]),
        5 => s[0].div(s[1]),
        6 => s[0].rem(),
        8 => s[0].and(s[1]),
        9 => s[0].or(s[1]),
        14 => s[0].not(),
        15 => s[0],
        _ => chosen(x[0].range, s[1], s[2], |a, b| a.join(b)),
    }
}

/// What the check shows for each step before the first refused one, and that step's refusal.
pub fn check(w: Width, steps: &[Step]) -> (Vec<Shown>, Option<u8>) {
    let mut shown: Vec<Shown> = Vec::new();
    for step in steps {
        let (n, m) = (step[1].into(), step[2].into());
        let next = match step[0] {
            0 => Ok(show_constant(n)),
            1 => Ok(show_input(n, m)),
            operator => {
                let x = operands(step, &shown);
                let ranges: Vec<Interval> = x.iter().map(|v| v.range).collect();
                show_range(w, operator, &ranges).map(|range| Shown {
                    range,
                    spacing: show_spacing(w, operator, &x),
                    sign: show_sign(operator, &x),
                })
            }
        };
        match next {
            Ok(v) => shown.push(v),
            Err(r) => return (shown, Some(r)),
        }
    }
    (shown, None)
}

// ---------------------------------------------------------------- texts

/// What the program `check_sheet` prints.
pub fn check_text(bytes: &[u8]) -> String {
    let steps = match read(bytes) {
        Ok(steps) => steps,
        Err((place, r)) => return format!("refused at byte {place} by {r}\n"),
    };
    let (shown, refused) = check(W64, &steps);
    let mut text = String::new();
    for (k, v) in shown.iter().enumerate() {
        text += &format!("{k} {} {} {}\n", v.range.text(W64), v.spacing.text(), v.sign.name());
    }
    text += &match refused {
        Some(r) => format!("refused at step {} by {r}\n", shown.len()),
        None => format!("passed {}\n", shown.len()),
    };
    text
}

/// What the program `run_sheet` prints.
pub fn run_text(bytes: &[u8], inputs: &[i64]) -> String {
    let steps = match read(bytes) {
        Ok(steps) => steps,
        Err((place, r)) => return format!("refused at byte {place} by {r}\n"),
    };
    let inputs: Vec<i128> = inputs.iter().map(|n| (*n).into()).collect();
    let (values, last) = match run(W64, &steps, &inputs) {
        Run::Refused(r) => return format!("refused by {r}\n"),
        Run::Stopped(values, r) => {
            let last = format!("stopped at step {} by {r}\n", values.len());
            (values, last)
        }
        Run::Ended(values) => {
            let last = format!("ended {}\n", values.len());
            (values, last)
        }
    };
    let mut text: String = values.iter().enumerate().map(|(k, n)| format!("{k} {n}\n")).collect();
    text += &last;
    text
}

/// The family `sheet` of `ask`.
pub fn sheet_answer(words: &[&[u8]]) -> Option<String> {
    let at = |place: usize, r: u8| format!("refused at {place} by {r}");
    match words {
        [b"read", word] => Some(match read(&bytes(word)?) {
            Ok(steps) => format!("read{}", listed(&steps.concat())),
            Err((place, r)) => at(place, r),
        }),
        [b"write", rest @ ..] => Some(match write(&numbers(rest)?) {
            Ok(written) => format!("written {}", hex(&written)),
            Err((Some(step), r)) => at(step, r),
            Err((None, r)) => refused(r),
        }),
        [b"check", word] => Some(match read(&bytes(word)?) {
            Ok(steps) => {
                let (shown, refused) = check(W64, &steps);
                let numbers: Vec<i128> = shown.iter().flat_map(Shown::numbers).collect();
                match refused {
                    Some(r) => format!("refused at step {} by {r}{}", shown.len(), listed(&numbers)),
                    None => format!("passed{}", listed(&numbers)),
                }
            }
            Err((place, r)) => at(place, r),
        }),
        [b"run", word, rest @ ..] => {
            let (sheet, inputs) = (bytes(word)?, numbers(rest)?);
            let steps = match read(&sheet) {
                Ok(steps) => steps,
                Err((place, r)) => return Some(at(place, r)),
            };
            let inputs: Vec<i128> = inputs.iter().map(|n| (*n).into()).collect();
            Some(match run(W64, &steps, &inputs) {
                Run::Refused(r) => refused(r),
                Run::Stopped(values, r) => format!("stopped at {} by {r}{}", values.len(), listed(&values)),
                Run::Ended(values) => format!("ended{}", listed(&values)),
            })
        }
        _ => None,
    }
}

/// A line `HEX n ..` of the list of sheets: its bytes and its inputs.
pub fn sheet_line(line: &[u8]) -> Option<(Vec<u8>, Vec<i64>)> {
    let mut words = line.split(|b| *b == b' ');
    let sheet = bytes(words.next()?)?;
    let inputs: Option<Vec<i64>> = words.map(number).collect();
    Some((sheet, inputs?))
}
