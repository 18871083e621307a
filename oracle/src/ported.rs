//! The ported operations, answered by the published Rust: a caught panic is the refusal that document 01 gives it.
use crate::domains::{Congruence, Interval, JoinSemiLatticeNoContext, LatticeNoContext, Sign};
use crate::published::{congruence_analysis, interval_analysis, lexer};
use crate::words::{numbers, refused};
use number_theory::NumberTheory;
use std::cmp::Ordering;
use std::panic::{catch_unwind, set_hook, AssertUnwindSafe};

/// Keeps panics silent: they are answers here.
pub fn silence() {
    set_hook(Box::new(|_| {}));
}

/// The refusal that a panic stands for: 2 a number that doesn't fit, 3 the assert of `from`, 4 a panic that is written out.
fn refusal(message: &str) -> u8 {
    if message.contains("with overflow") || message.contains("`Option::unwrap()` on a `None`") {
        2
    } else if message.starts_with("assertion failed: modulus == 0 || constant < modulus") {
        3
    } else if message.starts_with("Unexpected ") {
        4
    } else {
        eprintln!("oracle: a panic that document 01 doesn't know: {message}");
        std::process::exit(3);
    }
}

/// What the Rust answers, or the refusal for its panic.
pub fn or_refused(work: impl FnOnce() -> String) -> String {
    match catch_unwind(AssertUnwindSafe(work)) {
        Ok(answer) => answer,
        Err(payload) => {
            let message = match payload.downcast_ref::<String>() {
                Some(s) => s.as_str(),
                None => payload.downcast_ref::<&str>().copied().unwrap_or(""),
            };
            refused(refusal(message))
        }
    }
}

pub fn order(o: Option<Ordering>) -> String {
    match o {
        Some(o) => format!("{o:?}"),
        None => "None".to_string(),
    }
}

fn single(n: Option<i64>) -> String {
    match n {
        Some(n) => n.to_string(),
        None => "None".to_string(),
    }
}

const SIGNS: [Sign; 8] = [
    Sign::Top,
    Sign::Bottom,
    Sign::Negative,
    Sign::Zero,
    Sign::Positive,
    Sign::NonNeg,
    Sign::NonZero,
    Sign::NonPos,
];

pub fn sign_named(word: &[u8]) -> Option<Sign> {
    SIGNS.iter().copied().find(|s| format!("{s:?}").as_bytes() == word)
}

pub fn number_answer(words: &[&[u8]]) -> Option<String> {
    let (op, rest) = words.split_first()?;
    let n = numbers(rest)?;
    match (*op, n.as_slice()) {
        (b"gcd", [a, b]) => Some(or_refused(|| a.gcd(*b).to_string())),
        (b"lcm", [a, b]) => Some(or_refused(|| a.lcm(*b).unwrap().to_string())),
        _ => None,
    }
}

/// The Rust takes an i32: a number of the same sign stands for the i64.
fn sign_of_number(n: i64) -> Sign {
    Sign::from(n.signum() as i32)
}

pub fn sign_answer(words: &[&[u8]]) -> Option<String> {
    let (op, rest) = words.split_first()?;
    if let b"of_number" | b"of_interval" = *op {
        return match (*op, numbers(rest)?.as_slice()) {
            (b"of_number", [n]) => Some(format!("{:?}", sign_of_number(*n))),
            (b"of_interval", [a, b]) => Some(format!("{:?}", Sign::from(Interval { min: *a, max: *b }))),
            _ => None,
        };
    }
    if let (b"logical_eq", [s, t, is_bool]) = (*op, rest) {
        let is_bool = match *is_bool {
            b"true" => true,
            b"false" => false,
            _ => return None,
        };
        return Some(format!("{:?}", sign_named(s)?.logical_eq(sign_named(t)?, is_bool)));
    }
    let signs: Option<Vec<Sign>> = rest.iter().map(|w| sign_named(w)).collect();
    sign_operation(op, &signs?)
}

fn sign_operation(op: &[u8], signs: &[Sign]) -> Option<String> {
    let shown = |s: Sign| Some(format!("{s:?}"));
    match (op, signs) {
        (b"top", []) => shown(Sign::top_()),
        (b"bottom", []) => shown(Sign::bottom_()),
        (b"neg", [s]) => shown(-*s),
        (b"logical_not", [s]) => Some(or_refused(|| format!("{:?}", s.logical_not()))),
        (b"join", [s, t]) => shown(s.join_(t)),
        (b"meet", [s, t]) => shown(s.meet_(t)),
        (b"partial_cmp", [s, t]) => Some(order(s.partial_cmp(t))),
        (b"add", [s, t]) => shown(*s + *t),
        (b"sub", [s, t]) => shown(*s - *t),
        (b"mul", [s, t]) => shown(*s * *t),
        (b"div", [s, t]) => shown(*s / *t),
        (b"rem", [s, t]) => shown(*s % *t),
        (b"logical_and", [s, t]) => shown(s.logical_and(*t)),
        (b"logical_or", [s, t]) => shown(s.logical_or(*t)),
        (b"strict_cmp", [s, t]) => Some(order(s.strict_cmp(*t))),
        (b"weak_cmp", [s, t]) => Some(order(s.weak_cmp(*t))),
        (b"widen", [new, previous]) => shown(new.widen_(previous, 0)),
        (b"narrow", [new, previous]) => shown(new.narrow_(previous, 0)),
        _ => None,
    }
}

pub fn interval_answer(words: &[&[u8]]) -> Option<String> {
    let (op, rest) = words.split_first()?;
    if let (b"of_sign", [s]) = (*op, rest) {
        return Some(format!("{:?}", Interval::from(sign_named(s)?)));
    }
    match (*op, numbers(rest)?.as_slice()) {
        (b"of_number", [n]) => Some(format!("{:?}", Interval::from(*n))),
        (b"greater", [n]) => Some(format!("{:?}", Interval::greater(*n))),
        (b"smaller", [n]) => Some(format!("{:?}", Interval::smaller(*n))),
        (b"top", []) => Some(format!("{:?}", Interval::top_())),
        (b"bottom", []) => Some(format!("{:?}", Interval::bottom_())),
        (op, [a, b]) => interval_unary(op, Interval { min: *a, max: *b }),
        (op, [a, b, c, d]) => interval_binary(op, Interval { min: *a, max: *b }, Interval { min: *c, max: *d }),
        _ => None,
    }
}

fn interval_unary(op: &[u8], x: Interval) -> Option<String> {
    Some(match op {
        b"singleton" => single(x.singleton()),
        b"logical_not" => format!("{:?}", x.logical_not()),
        b"neg" => or_refused(|| format!("{:?}", -x)),
        _ => return None,
    })
}

fn interval_binary(op: &[u8], x: Interval, y: Interval) -> Option<String> {
    let shown = |work: &dyn Fn() -> Interval| Some(or_refused(|| format!("{:?}", work())));
    let pair = |work: &dyn Fn() -> (Interval, Interval)| {
        Some(or_refused(|| {
            let (a, b) = work();
            format!("{a:?} {b:?}")
        }))
    };
    match op {
        b"logical_and" => shown(&|| x.logical_and(y)),
        b"logical_or" => shown(&|| x.logical_or(y)),
        b"strict_cmp" => Some(order(x.strict_cmp(y))),
        b"weak_cmp" => Some(order(x.weak_cmp(y))),
        b"equals" => shown(&|| x.equals(y)),
        b"may_equal_when" => shown(&|| x.may_equal_when(y)),
        b"maybe_less_when" => pair(&|| x.maybe_less_when(y)),
        b"maybe_le_when" => pair(&|| x.maybe_le_when(y)),
        b"partial_cmp" => Some(order(x.partial_cmp(&y))),
        b"join" => shown(&|| x.join_(&y)),
        b"meet" => shown(&|| x.meet_(&y)),
        b"widen" => shown(&|| x.widen_(&y, 0)),
        b"narrow" => shown(&|| x.narrow_(&y, 0)),
        b"add" => shown(&|| x + y),
        b"sub" => shown(&|| x - y),
        b"mul" => shown(&|| x * y),
        b"rem" => shown(&|| x % y),
        _ => None,
    }
}

/// A congruence of the domain, by the Rust's own making; none outside the domain, which is refused by 1.
pub fn congruence(c: i64, m: i64) -> Option<Congruence> {
    if (c, m) == (1, 1) {
        Some(Congruence::bottom_())
    } else if m == 0 || (m > 0 && c < m) {
        Some(Congruence::from(c, m))
    } else {
        None
    }
}

pub fn congruence_answer(words: &[&[u8]]) -> Option<String> {
    let (op, rest) = words.split_first()?;
    match (*op, numbers(rest)?.as_slice()) {
        (b"top", []) => Some(format!("{:?}", Congruence::top_())),
        (b"bottom", []) => Some(format!("{:?}", Congruence::bottom_())),
        (b"from", [_, m]) if *m < 0 => Some(refused(1)),
        (b"from", [c, m]) => Some(or_refused(|| format!("{:?}", Congruence::from(*c, *m)))),
        (op, [c, m]) => congruence_unary(op, congruence(*c, *m)),
        (op, [c, m, d, n]) => congruence_binary(op, congruence(*c, *m).zip(congruence(*d, *n))),
        _ => None,
    }
}

/// `work` on a congruence of the domain, refused by 1 outside it.
fn inside<T>(value: Option<T>, work: impl FnOnce(T) -> String) -> Option<String> {
    Some(match value {
        Some(v) => or_refused(|| work(v)),
        None => refused(1),
    })
}

fn congruence_unary(op: &[u8], x: Option<Congruence>) -> Option<String> {
    match op {
        b"singleton" => inside(x, |x| single(x.singleton())),
        b"logical_not" => inside(x, |x| format!("{:?}", x.logical_not())),
        b"neg" => inside(x, |x| format!("{:?}", -x)),
        _ => None,
    }
}

fn congruence_binary(op: &[u8], both: Option<(Congruence, Congruence)>) -> Option<String> {
    match op {
        b"disjoint" => inside(both, |(x, y)| x.disjoint(y).to_string()),
        b"equals" => inside(both, |(x, y)| format!("{:?}", x.equals(y))),
        b"logical_and" => inside(both, |(x, y)| format!("{:?}", x.logical_and(y))),
        b"logical_or" => inside(both, |(x, y)| format!("{:?}", x.logical_or(y))),
        b"strict_cmp" => inside(both, |(x, y)| order(x.strict_cmp(y))),
        b"partial_cmp" => inside(both, |(x, y)| order(x.partial_cmp(&y))),
        b"join" => inside(both, |(x, y)| format!("{:?}", x.join_(&y))),
        b"meet" => inside(both, |(x, y)| format!("{:?}", x.meet_(&y))),
        b"widen" => inside(both, |(new, previous)| format!("{:?}", new.widen_(&previous, 0))),
        b"narrow" => inside(both, |(new, previous)| format!("{:?}", new.narrow_(&previous, 0))),
        b"add" => inside(both, |(x, y)| format!("{:?}", x + y)),
        b"sub" => inside(both, |(x, y)| format!("{:?}", x - y)),
        b"mul" => inside(both, |(x, y)| format!("{:?}", x * y)),
        b"div" => inside(both, |(x, y)| format!("{:?}", x / y)),
        _ => None,
    }
}

/// `transfer interval|congruence binary|unary NUMBER ..`; what isn't in the domain is refused before the Rust is asked.
pub fn transfer_answer(words: &[&[u8]]) -> Option<String> {
    let [analysis, shape, rest @ ..] = words else {
        return None;
    };
    let n = numbers(rest)?;
    let (number, operands) = n.split_first()?;
    let token = lexer::token(*number);
    match (*analysis, *shape, operands) {
        (b"interval", b"binary", [a, b, c, d]) => {
            let (x, y) = (Interval { min: *a, max: *b }, Interval { min: *c, max: *d });
            inside(token, |t| format!("{:?}", interval_analysis::binary(t, x, y)))
        }
        (b"interval", b"unary", [a, b]) => {
            let x = Interval { min: *a, max: *b };
            inside(token, |t| format!("{:?}", interval_analysis::unary(t, x)))
        }
        (b"congruence", b"binary", [c, m, d, n]) => {
            let both = congruence(*c, *m).zip(congruence(*d, *n));
            inside(token.zip(both), |(t, (x, y))| {
                format!("{:?}", congruence_analysis::binary(t, x, y))
            })
        }
        (b"congruence", b"unary", [c, m]) => inside(token.zip(congruence(*c, *m)), |(t, x)| {
            format!("{:?}", congruence_analysis::unary(t, x))
        }),
        _ => None,
    }
}
