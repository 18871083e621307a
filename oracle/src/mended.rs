//! The families `mended sign`, `mended interval` and `mended congruence`, and the last two `at` a width, answered by the model.
use crate::model::{range, spaced, Answer, Comparison, Congruence, Interval, Sign, Width};
use crate::ported::order;
use crate::sized::width;
use crate::words::{number, numbers, refused};

fn comparison(op: &[u8]) -> Option<Comparison> {
    Some(match op {
        b"equals" => Comparison::Equal,
        b"less" => Comparison::Less,
        b"greater" => Comparison::Greater,
        b"less_or_equal" => Comparison::LessOrEqual,
        b"greater_or_equal" => Comparison::GreaterOrEqual,
        _ => return None,
    })
}

/// What stands after `at`: the bits, and a mended interval or congruence. A sign has no width.
pub fn sized_answer(words: &[&[u8]]) -> Option<String> {
    let [bits, b"mended", rest @ ..] = words else { return None };
    let w = width(number(bits)?)?;
    match rest {
        [b"interval" | b"congruence", ..] => mended_answer(w, rest),
        _ => None,
    }
}

pub fn mended_answer(w: Width, words: &[&[u8]]) -> Option<String> {
    let [family, op, rest @ ..] = words else { return None };
    match *family {
        b"sign" => sign_answer(op, rest),
        b"interval" => interval_answer(w, op, &numbers(rest)?),
        b"congruence" => congruence_answer(w, op, &numbers(rest)?),
        _ => None,
    }
}

fn sign_answer(op: &[u8], words: &[&[u8]]) -> Option<String> {
    let signs: Option<Vec<Sign>> = words.iter().map(|w| Sign::named(w)).collect();
    let shown = |s: Sign| Some(s.name().to_string());
    match (op, signs?.as_slice()) {
        (b"weak_cmp", [s, t]) => Some(order(s.weak_cmp(*t))),
        (b"div", [s, t]) => shown(s.div(*t)),
        (b"logical_not", [s]) => shown(s.not()),
        (op, [s, t]) => shown(s.compare(comparison(op)?, *t)),
        _ => None,
    }
}

fn interval_answer(w: Width, op: &[u8], n: &[i64]) -> Option<String> {
    let at = |i: usize| range(n[i].into(), n[i + 1].into());
    let answer: Answer<Interval> = match (op, n.len()) {
        (b"neg", 2) => w.interval_neg(at(0)),
        (b"add", 4) => w.interval_corners(at(0), at(2), |x, y| x + y),
        (b"sub", 4) => w.interval_corners(at(0), at(2), |x, y| x - y),
        (b"mul", 4) => w.interval_corners(at(0), at(2), |x, y| x * y),
        (b"div", 4) => w.interval_div(at(0), at(2)),
        (b"rem", 4) => w.interval_rem(at(0), at(2)),
        (b"narrow", 4) => w.interval_narrow(at(0), at(2)),
        (op, 4) => w.interval_compare(comparison(op)?, at(0), at(2)),
        _ => return None,
    };
    Some(match answer {
        Ok(i) => i.text(w),
        Err(r) => refused(r),
    })
}

fn congruence_answer(w: Width, op: &[u8], n: &[i64]) -> Option<String> {
    let known = match (op, n.len()) {
        (b"neg", 2) => true,
        (b"add" | b"sub" | b"mul" | b"div" | b"join" | b"meet" | b"widen" | b"disjoint" | b"partial_cmp", 4) => true,
        (op, 4) => comparison(op).is_some(),
        _ => false,
    };
    if !known {
        return None;
    }
    let given: Vec<Congruence> = n.chunks(2).map(|p| spaced(p[0].into(), p[1].into())).collect();
    if !given.iter().all(|x| w.in_domain(*x)) {
        return Some(refused(1));
    }
    let x = given[0].canonical();
    if op == b"neg" {
        return Some(w.congruence_neg(x).text());
    }
    let y = given[1].canonical();
    Some(match op {
        b"add" => w.congruence_add(x, y).text(),
        b"sub" => w.congruence_sub(x, y).text(),
        b"mul" => w.congruence_mul(x, y).text(),
        b"div" => w.congruence_div(x, y).text(),
        b"join" | b"widen" => w.congruence_join(x, y).text(),
        b"meet" => w.congruence_meet(x, y).text(),
        b"disjoint" => x.disjoint(y).to_string(),
        b"partial_cmp" => order(x.order(y)),
        _ => x.compare(comparison(op)?, y).text(),
    })
}
