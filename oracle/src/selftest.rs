//! Holds the model to the published Rust where document 01 lists no error, to sets by counting at small widths,
//! and both to document 01's fourteen numbers.
use crate::answer;
use crate::model::*;
use crate::questions::{inputs, number, sheet_and_inputs, steps, written, Random};
use crate::sheet;
use std::cmp::Ordering;

struct Tally {
    agreed: u64,
    failed: u64,
}

impl Tally {
    fn hold(&mut self, good: bool, what: impl FnOnce() -> String) {
        if good {
            self.agreed += 1;
            return;
        }
        self.failed += 1;
        if self.failed <= 20 {
            eprintln!("differs: {}", what());
        }
    }

    fn same(&mut self, question: &str, expected: &str) {
        let got = ask(question);
        self.hold(got == expected, || format!("{question}: {got}, expected {expected}"));
    }
}

fn ask(question: &str) -> String {
    answer(question.as_bytes())
}

fn order_text(o: Option<Ordering>) -> String {
    crate::ported::order(o)
}

pub fn all() -> (u64, u64) {
    let mut t = Tally { agreed: 0, failed: 0 };
    fourteen(&mut t);
    numbers(&mut t);
    signs(&mut t);
    intervals(&mut t);
    small_intervals(&mut t);
    congruences(&mut t);
    small_congruences(&mut t);
    sheets(&mut t);
    (t.agreed, t.failed)
}

/// Document 01's numbers, in its order.
fn fourteen(t: &mut Tally) {
    let (min, max) = (i64::MIN, i64::MAX);
    for (question, expected) in [
        ("sign mul Negative NonZero".to_string(), "NonZero"),
        ("sign weak_cmp Zero NonNeg".to_string(), "Greater"),
        ("mended sign weak_cmp Zero NonNeg".to_string(), "Less"),
        ("sign div Positive NonZero".to_string(), "NonZero"),
        ("mended sign div Positive NonZero".to_string(), "Top"),
        ("transfer interval binary 13 3 3 3 3".to_string(), "[0, 0]"),
        ("mended interval greater_or_equal 3 3 3 3".to_string(), "[1, 1]"),
        (format!("interval neg {min} {min}"), "refused by 2"),
        (format!("interval neg {min} 5"), "[-5, inf]"),
        ("interval rem 0 0 1 3".to_string(), "[-2, 0]"),
        (format!("interval rem 7 7 {min} {max}"), "refused by 2"),
        (format!("mended interval rem 7 7 {min} {max}"), "[0, inf]"),
        ("congruence meet 1 2 2 3".to_string(), "1 mod 6"),
        ("mended congruence meet 1 2 2 3".to_string(), "5 mod 6"),
        ("congruence disjoint -1 0 2 3".to_string(), "true"),
        ("mended congruence disjoint -1 0 2 3".to_string(), "false"),
        ("congruence join 4 0 10 0".to_string(), "4 mod 6"),
        ("congruence neg 1 3".to_string(), "-1 mod 3"),
        ("mended congruence neg 1 3".to_string(), "2 mod 3"),
        ("congruence div 0 6 -2 0".to_string(), "refused by 3"),
        ("mended congruence div 0 6 -2 0".to_string(), "0 mod 3"),
        ("interval widen 0 5 0 0".to_string(), "[0, inf]"),
        ("sheet run 0301020800F403040001 2".to_string(), "ended 2 250 500"),
        ("interval add 1 4 250 250".to_string(), "[251, 254]"),
        ("sign logical_not Top".to_string(), "refused by 4"),
    ] {
        t.same(&question, expected);
    }
    let shown = sheet::check_text(&[0x03, 0x01, 0x02, 0x08, 0x00, 0xF4, 0x03, 0x04, 0x00, 0x01]);
    let expected =
        "0 [1, 4] 0 mod 1 Positive\n1 [250, 250] 250 mod 0 Positive\n2 [250, 1000] 0 mod 250 Positive\npassed 3\n";
    t.hold(shown == expected, || shown.clone());
}

fn numbers(t: &mut Tally) {
    let mut r = Random::new(7);
    let text = |n: i128| {
        if W64.fits(n) {
            n.to_string()
        } else {
            "refused by 2".to_string()
        }
    };
    for _ in 0..20_000 {
        let (a, b) = (number(&mut r), number(&mut r));
        t.same(&format!("number gcd {a} {b}"), &text(gcd(a.into(), b.into())));
        t.same(&format!("number lcm {a} {b}"), &text(lcm(a.into(), b.into())));
    }
}

/// Every pair: the tables by sets, and the errors that document 01 lists, nowhere else.
fn signs(t: &mut Tally) {
    for s in all_signs() {
        let a = s.name();
        t.same(
            &format!("sign neg {a}"),
            Sign::of_all(s.some().into_iter().map(|n| -n)).name(),
        );
        for u in all_signs() {
            let b = u.name();
            let two = |op: &str| format!("sign {op} {a} {b}");
            t.same(&two("join"), s.join(u).name());
            t.same(&two("meet"), s.meet(u).name());
            t.same(&two("add"), s.least(u, |x, y| x + y).name());
            t.same(&two("sub"), s.least(u, |x, y| x - y).name());
            t.same(&two("mul"), s.mul(u).name());
            t.same(&two("rem"), s.rem().name());
            t.same(&two("logical_and"), s.and(u).name());
            t.same(&two("logical_or"), s.or(u).name());
            let order = match (s.0 & !u.0, u.0 & !s.0) {
                (0, 0) => Some(Ordering::Equal),
                (0, _) => Some(Ordering::Less),
                (_, 0) => Some(Ordering::Greater),
                _ => None,
            };
            t.same(&two("partial_cmp"), &order_text(order));
            // error 2: NonZero for NonZero products, and right elsewhere
            let ported = if s.mul(u) == NON_ZERO { NON_ZERO } else { s.div(u) };
            t.same(&two("div"), ported.name());
            let quotients = s.pairs(u).into_iter().filter(|(_, y)| *y != 0).map(|(x, y)| x / y);
            t.hold(Sign::of_all(quotients).join(s.div(u)) == s.div(u), || two("mended div"));
            // error 1: the two cells exchanged
            let mended = order_text(s.weak_cmp(u));
            let cell = match (a, b) {
                ("Zero", "NonNeg") => "Greater",
                ("Zero", "NonPos") => "Less",
                _ => mended.as_str(),
            };
            t.same(&two("weak_cmp"), cell);
            let all = |how: Comparison| s.compare(how, u) == POSITIVE;
            let strict = [
                (Comparison::Less, "Less"),
                (Comparison::Greater, "Greater"),
                (Comparison::Equal, "Equal"),
            ];
            let strict = strict
                .iter()
                .find(|(how, _)| all(*how))
                .map_or("None", |(_, name)| name);
            t.same(&two("strict_cmp"), strict);
        }
    }
}

fn ends(r: &mut Random) -> (i64, i64) {
    let (a, b) = (number(r), number(r));
    match r.below(8) {
        0 => (a, a),
        1 => (i64::MAX, i64::MIN),
        _ => (a.min(b), a.max(b)),
    }
}

/// The Rust and the model agree wherever document 01 lists no error and no end is infinite.
fn intervals(t: &mut Tally) {
    let mut r = Random::new(11);
    let infinite = |n: i64| n == i64::MIN || n == i64::MAX || n == -i64::MAX;
    for _ in 0..40_000 {
        let (x, y) = (ends(&mut r), if r.once_in(6) { (0, 0) } else { ends(&mut r) });
        let wide = range(x.0.into(), x.1.into());
        t.same(&format!("sign of_interval {} {}", x.0, x.1), wide.sign().name());
        let two = |family: &str, op: &str| format!("{family} {op} {} {} {} {}", x.0, x.1, y.0, y.1);
        if ![x.0, x.1, y.0, y.1].into_iter().any(infinite) {
            t.same(
                &format!("interval neg {} {}", x.0, x.1),
                &ask(&format!("mended interval neg {} {}", x.0, x.1)),
            );
            for op in ["add", "sub", "mul"] {
                let mended = ask(&two("mended interval", op));
                if mended != "refused by 2" {
                    t.same(&two("interval", op), &mended);
                }
            }
        }
        let ported = ask(&two("interval", "rem"));
        if x != (0, 0) && ported != "refused by 2" {
            t.same(&two("mended interval", "rem"), &ported);
        }
        let ported = ask(&two("interval", "narrow"));
        let mended = ask(&two("mended interval", "narrow"));
        if mended != "[inf, -inf]" {
            t.same(&two("interval", "narrow"), &mended);
        } else {
            t.hold(!ported.contains("refused"), || ported);
        }
        t.same(&two("mended interval", "equals"), &ask(&two("interval", "equals")));
        // error 4: ranges that touch; there < and > are right but not sharp
        if x.1 != y.0 && x.0 != y.1 {
            t.same(
                &two("mended interval", "less"),
                &ask(&two("transfer interval binary", "10")),
            );
            t.same(
                &two("mended interval", "greater"),
                &ask(&two("transfer interval binary", "11")),
            );
            t.same(
                &two("mended interval", "less_or_equal"),
                &ask(&two("transfer interval binary", "12")),
            );
            t.same(
                &two("mended interval", "greater_or_equal"),
                &ask(&two("transfer interval binary", "13")),
            );
        }
    }
}

/// Every pair of canonical intervals at three bits, by counting.
/// Every operation on two refuses by 1 if one isn't in the domain of the width.
fn outside(t: &mut Tally, w: Width, x: Interval, y: Interval) {
    let mut answers = vec![
        w.interval_corners(x, y, |a, b| a + b),
        w.interval_corners(x, y, |a, b| a - b),
        w.interval_corners(x, y, |a, b| a * b),
        w.interval_div(x, y),
        w.interval_rem(x, y),
        w.interval_narrow(x, y),
    ];
    answers.extend(COMPARISONS.map(|how| w.interval_compare(how, x, y)));
    t.hold(answers.iter().all(|a| *a == Err(1)), || format!("outside {x:?} {y:?}"));
}

fn small_intervals(t: &mut Tally) {
    let w = Width { least: -4, greatest: 3 };
    // every pair of ends, also those just outside of the width, which are refused by 1
    let near = w.least - 1..=w.greatest + 1;
    let values: Vec<Interval> = near.clone().flat_map(|a| near.clone().map(move |b| range(a, b))).collect();
    let number = |n: i128| w.least <= n && n <= w.greatest;
    let good = |i: &Interval| number(i.min) && number(i.max) && (i.min <= i.max || (i.min, i.max) == (w.greatest, w.least));
    let hull = |numbers: Vec<i128>| {
        if numbers.is_empty() {
            return Ok(w.bottom());
        }
        let hull = range(*numbers.iter().min().unwrap(), *numbers.iter().max().unwrap());
        if w.fits(hull.min) && w.fits(hull.max) {
            Ok(hull)
        } else {
            Err(2)
        }
    };
    for x in &values {
        let expected = if good(x) {
            hull((x.min..=x.max).map(|n| -n).collect())
        } else {
            Err(1)
        };
        t.hold(w.interval_neg(*x) == expected, || format!("neg {x:?}"));
        for y in &values {
            if !good(x) || !good(y) {
                outside(t, w, *x, *y);
                continue;
            }
            let pairs: Vec<(i128, i128)> = (x.min..=x.max)
                .flat_map(|a| (y.min..=y.max).map(move |b| (a, b)))
                .collect();
            let all = |work: fn(i128, i128) -> i128| hull(pairs.iter().map(|(a, b)| work(*a, *b)).collect());
            t.hold(w.interval_corners(*x, *y, |a, b| a + b) == all(|a, b| a + b), || {
                format!("add {x:?} {y:?}")
            });
            t.hold(w.interval_corners(*x, *y, |a, b| a - b) == all(|a, b| a - b), || {
                format!("sub {x:?} {y:?}")
            });
            t.hold(w.interval_corners(*x, *y, |a, b| a * b) == all(|a, b| a * b), || {
                format!("mul {x:?} {y:?}")
            });
            let quotients = if *y == range(0, 0) {
                Ok(w.bottom())
            } else if pairs.iter().any(|(a, b)| *b == 0 || !w.fits(a / b)) {
                Ok(w.top())
            } else {
                all(|a, b| a / b)
            };
            t.hold(w.interval_div(*x, *y) == quotients, || format!("div {x:?} {y:?}"));
            if let Ok(rem) = w.interval_rem(*x, *y) {
                let good = pairs.iter().filter(|p| p.1 != 0).all(|(a, b)| rem.holds(a % b));
                t.hold(good && w.canonical(rem), || format!("rem {x:?} {y:?}"));
            }
            for how in COMPARISONS {
                let holding = pairs.iter().filter(|(a, b)| how.holds(*a, *b)).count();
                let expected = match holding {
                    _ if pairs.is_empty() => range(0, 1),
                    n if n == pairs.len() => range(1, 1),
                    0 => range(0, 0),
                    _ => range(0, 1),
                };
                t.hold(w.interval_compare(how, *x, *y) == Ok(expected), || {
                    format!("{how:?} {x:?} {y:?}")
                });
            }
            let narrow = w.interval_narrow(*x, *y).unwrap();
            if y.min <= x.min && x.max <= y.max {
                let between = narrow.min <= x.min && x.max <= narrow.max && y.min <= narrow.min && narrow.max <= y.max;
                t.hold(between || (x.empty() && narrow.empty()), || {
                    format!("narrow {x:?} {y:?}")
                });
            }
        }
    }
}

fn canonical(r: &mut Random) -> (i64, i64) {
    match r.below(6) {
        0 => (1, 1),
        1 | 2 => (number(r), 0),
        _ => {
            let m = number(r).unsigned_abs().min(i64::MAX as u64).max(1) as i64;
            (number(r).rem_euclid(m), m)
        }
    }
}

/// `c mod m` as the Rust shows it, made canonical.
fn made_canonical(shown: &str) -> String {
    let numbers: Vec<i128> = shown.split(" mod ").map(|n| n.parse().unwrap()).collect();
    spaced(numbers[0], numbers[1]).canonical().text()
}

/// The Rust's answer, made canonical, is the model's wherever it gives one and document 01 lists no error.
fn congruences(t: &mut Tally) {
    let mut r = Random::new(13);
    for _ in 0..60_000 {
        let (x, y) = (canonical(&mut r), canonical(&mut r));
        let y = if r.once_in(4) {
            (x.0, y.1.max(x.0.saturating_add(1)))
        } else {
            y
        };
        let y = if y == (i64::MAX, i64::MAX) { (0, 1) } else { y };
        let two = |family: &str, op: &str| format!("{family} {op} {} {} {} {}", x.0, x.1, y.0, y.1);
        for op in ["add", "sub", "mul", "div", "join"] {
            let ported = ask(&two("congruence", op));
            if !ported.starts_with("refused") {
                t.same(&two("mended congruence", op), &made_canonical(&ported));
            }
        }
        let ported = ask(&format!("congruence neg {} {}", x.0, x.1));
        if !ported.starts_with("refused") {
            t.same(
                &format!("mended congruence neg {} {}", x.0, x.1),
                &made_canonical(&ported),
            );
        }
        let (a, b) = (spaced(x.0.into(), x.1.into()), spaced(y.0.into(), y.1.into()));
        t.same(&two("congruence", "logical_and"), &a.and(b).text());
        t.same(&two("congruence", "logical_or"), &a.or(b).text());
        t.same(&format!("congruence logical_not {} {}", x.0, x.1), &a.not().text());
        for (number, op) in [
            (10, "less"),
            (11, "greater"),
            (12, "less_or_equal"),
            (13, "greater_or_equal"),
        ] {
            t.same(
                &two("mended congruence", op),
                &ask(&two("transfer congruence binary", &number.to_string())),
            );
        }
        // error 5: beside a negative single number, and bottom for disjoint
        let negative = [x, y].iter().any(|v| v.1 == 0 && v.0 < 0);
        if !negative {
            t.same(
                &two("congruence", "partial_cmp"),
                &ask(&two("mended congruence", "partial_cmp")),
            );
            if x != (1, 1) && y != (1, 1) {
                t.same(
                    &two("congruence", "disjoint"),
                    &ask(&two("mended congruence", "disjoint")),
                );
                t.same(&two("congruence", "equals"), &ask(&two("mended congruence", "equals")));
                meets(t, &ask(&two("congruence", "meet")), a, b);
            }
        }
    }
}

/// The Rust's meet has the right modulus, though perhaps not the right constant (error 6).
fn meets(t: &mut Tally, ported: &str, a: Congruence, b: Congruence) {
    let mended = W64.congruence_meet(a, b);
    if ported.starts_with("refused") {
        t.hold(mended == a, || format!("meet {a:?} {b:?}: {ported}"));
        return;
    }
    let modulus = ported.split(" mod ").nth(1).unwrap();
    t.hold(modulus == mended.modulus.to_string(), || {
        format!("meet {a:?} {b:?}: {ported}")
    });
    if mended != NOTHING && mended.modulus > 0 {
        let both = a.holds(mended.constant) && b.holds(mended.constant);
        t.hold(both && mended.modulus == lcm(a.modulus, b.modulus), || {
            format!("meet {a:?} {b:?}")
        });
    }
}

/// Every pair of canonical congruences at four bits, by counting over numbers far beyond the width.
fn small_congruences(t: &mut Tally) {
    let w = Width { least: -8, greatest: 7 };
    let mut values = vec![NOTHING];
    values.extend((w.least..=w.greatest).map(|c| spaced(c, 0)));
    for m in 1..=w.greatest {
        values.extend((0..m).map(|c| spaced(c, m)));
    }
    let window = -840..840;
    let inner: Vec<i128> = (-60..=60).collect();
    let within = |v: Congruence, other: Congruence| inner.iter().all(|n| !v.holds(*n) || other.holds(*n));
    for x in &values {
        let neg = w.congruence_neg(*x);
        let fits = x.modulus != 0 || w.fits(-x.constant);
        t.hold(inner.iter().all(|n| neg.holds(*n) == (fits && x.holds(-*n))), || {
            format!("neg {x:?}")
        });
        for y in &values {
            let what = |op: &str, v: Congruence| format!("small {op} {x:?} {y:?}: {v:?}");
            let sound = |v: Congruence| values.contains(&v);
            let common = window.clone().any(|n| x.holds(n) && y.holds(n));
            t.hold(x.disjoint(*y) != common, || what("disjoint", *x));
            let order = match (within(*x, *y), within(*y, *x)) {
                (true, true) => Some(Ordering::Equal),
                (true, false) => Some(Ordering::Less),
                (false, true) => Some(Ordering::Greater),
                _ => None,
            };
            t.hold(x.order(*y) == order, || what("order", *x));
            let meet = w.congruence_meet(*x, *y);
            let fits = x.modulus == 0 || y.modulus == 0 || w.fits(lcm(x.modulus, y.modulus));
            let exact = window.clone().all(|n| meet.holds(n) == (x.holds(n) && y.holds(n)));
            t.hold(sound(meet) && if fits || !common { exact } else { meet == *x }, || {
                what("meet", meet)
            });
            let join = w.congruence_join(*x, *y);
            let apart = x.modulus == 0 && y.modulus == 0 && (x.constant - y.constant).abs() > w.greatest;
            let least = values
                .iter()
                .all(|v| !(within(*x, *v) && within(*y, *v)) || within(join, *v));
            let covers = within(*x, join) && within(*y, join);
            t.hold(sound(join) && covers && if apart { join == ALL } else { least }, || {
                what("join", join)
            });
            results(t, w, &values, *x, *y);
        }
    }
}

/// Sums and differences are exact, products and quotients covered.
fn results(t: &mut Tally, w: Width, values: &[Congruence], x: Congruence, y: Congruence) {
    let some: Vec<(i128, i128)> = {
        let of = |v: Congruence| (-60..=60).filter(|n| v.holds(*n)).collect::<Vec<i128>>();
        let right = of(y);
        of(x)
            .into_iter()
            .flat_map(|a| right.iter().map(|b| (a, *b)).collect::<Vec<_>>())
            .collect()
    };
    let singles = x.modulus == 0 && y.modulus == 0;
    for (name, v, work) in [
        ("add", w.congruence_add(x, y), (|a, b| a + b) as fn(i128, i128) -> i128),
        ("sub", w.congruence_sub(x, y), |a, b| a - b),
    ] {
        let mut reached: Vec<i128> = some
            .iter()
            .map(|(a, b)| work(*a, *b))
            .filter(|n| (-20..=20).contains(n))
            .collect();
        reached.sort_unstable();
        reached.dedup();
        if singles {
            reached.retain(|n| w.fits(*n));
        }
        let shown: Vec<i128> = (-20..=20).filter(|n| v.holds(*n)).collect();
        t.hold(reached == shown && values.contains(&v), || {
            format!("small {name} {x:?} {y:?}: {v:?}")
        });
    }
    let mul = w.congruence_mul(x, y);
    let good = some
        .iter()
        .map(|(a, b)| a * b)
        .all(|n| mul.holds(n) || (singles && !w.fits(n)));
    t.hold(good && values.contains(&mul), || {
        format!("small mul {x:?} {y:?}: {mul:?}")
    });
    let div = w.congruence_div(x, y);
    let mut quotients = some.iter().filter(|p| p.1 != 0).map(|(a, b)| a / b);
    let good = quotients.all(|n| div.holds(n) || (singles && !w.fits(n)));
    t.hold(good && values.contains(&div), || {
        format!("small div {x:?} {y:?}: {div:?}")
    });
}

/// Reading and writing undo each other; what a passed check shows holds in every run tried; a refused step can stop so.
fn sheets(t: &mut Tally) {
    let mut r = Random::new(17);
    for k in 0..4_000 {
        let n = if k % 50 == 0 {
            r.below(257) as usize
        } else {
            r.below(14) as usize
        };
        let made = steps(&mut r, n);
        let bytes = written(&made);
        t.hold(bytes.len() <= 5378 && sheet::read(&bytes) == Ok(made.clone()), || {
            format!("read {made:?}")
        });
        let (shown, refused) = sheet::check(W64, &made);
        let passed = &made[..shown.len()];
        for _ in 0..8 {
            let given: Vec<i128> = inputs(&mut r, passed).into_iter().map(i128::from).collect();
            let good = match sheet::run(W64, passed, &given) {
                sheet::Run::Ended(values) => values
                    .iter()
                    .zip(&shown)
                    .all(|(n, v)| v.range.holds(*n) && v.spacing.holds(*n) && v.sign.0 & Sign::of_number(*n).0 != 0),
                _ => false,
            };
            t.hold(good, || format!("run {passed:?} {given:?}"));
        }
        if let Some(by) = refused {
            t.hold(can_stop(&made[shown.len()], &shown, by), || {
                format!("refused {made:?} by {by}")
            });
        }
        let line = sheet_and_inputs(&mut r);
        let (bytes, _) = sheet::sheet_line(line.as_bytes()).unwrap();
        if let Ok(steps) = sheet::read(&bytes) {
            t.hold(sheet::write(&steps.concat()) == Ok(bytes), || format!("write {line}"));
        }
    }
}

/// Whether numbers of the operands' ranges, each from its own, make the step stop by this number.
fn can_stop(step: &sheet::Step, shown: &[sheet::Shown], by: u8) -> bool {
    let ranges: Vec<Interval> = match sheet::fields(step[0] as u64) {
        Some(sheet::Fields::Operands(many)) => step[1..1 + many].iter().map(|k| shown[*k as usize].range).collect(),
        _ => return false,
    };
    let some = |i: Interval| {
        [i.min, i.max, -1, 0, 1]
            .into_iter()
            .filter(move |n| i.holds(*n))
            .collect::<Vec<i128>>()
    };
    let mut tries: Vec<Vec<i128>> = vec![Vec::new()];
    for i in ranges {
        tries = tries
            .iter()
            .flat_map(|t| some(i).into_iter().map(|n| [t.clone(), vec![n]].concat()))
            .collect();
    }
    tries.iter().any(|x| sheet::run_operator(W64, step[0], x) == Err(by))
}
