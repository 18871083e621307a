//! The families `at 16` and `at 32`: mended intervals and congruences of a width, their random questions and their lists.
use crate::lists::{pairs, Pair};
use crate::model::Width;
use crate::questions::{operations, Operation, Random, Takes};
use crate::words::listed;

/// The numbers of 16, 32 or 64 bits.
pub fn width(bits: i64) -> Option<Width> {
    match bits {
        16 | 32 | 64 => Some(Width {
            least: -(1 << (bits - 1)),
            greatest: (1 << (bits - 1)) - 1,
        }),
        _ => None,
    }
}

/// The ends of a width below 64 bits.
#[derive(Clone, Copy)]
pub struct Ends {
    bits: i64,
    least: i64,
    greatest: i64,
}

/// The width of a family's name.
pub fn named(family: &str) -> Option<Ends> {
    let bits = match family {
        "at-16" => 16,
        "at-32" => 32,
        _ => return None,
    };
    Some(Ends {
        bits,
        least: -(1 << (bits - 1)),
        greatest: (1 << (bits - 1)) - 1,
    })
}

impl Ends {
    /// A number of the width, now and then one beside or far outside of it.
    fn number(self, r: &mut Random) -> i64 {
        let half = 1 << (self.bits / 2);
        match r.below(12) {
            0..=2 => r.pick(&[self.least, self.least + 1, -1, 0, 1, 2, self.greatest - 1, self.greatest]),
            3 => r.pick(&[half, half - 1, -half, half / 2, self.greatest / 2 + 1, self.greatest / 3, 181, 182]),
            4..=6 => r.between(-20, 20),
            7 => r.pick(&[2, 3, 5, 7]) * r.pick(&[2, 3, 5, -1]) * r.between(-9, 9),
            8 if r.once_in(3) => r.pick(&[self.least - 1, self.greatest + 1, i64::MIN, i64::MAX]),
            _ => {
                let by = r.below(self.bits as u64);
                r.between(self.least >> by, self.greatest >> by)
            }
        }
    }

    fn interval(self, r: &mut Random) -> Pair {
        let (a, b) = (self.number(r), self.number(r));
        match r.below(16) {
            0 => (self.greatest, self.least),
            1 => (a, b),
            2 => (self.least, self.greatest),
            3 => (a, self.greatest),
            4 => (self.least, a),
            5 | 6 => (a, a),
            7 => r.pick(&[(0, 0), (1, 1), (0, 1), (i64::MAX, i64::MIN)]),
            _ => (a.min(b), a.max(b)),
        }
    }

    fn congruence(self, r: &mut Random) -> Pair {
        let m = match r.below(8) {
            0 | 1 => 0,
            2 => 1,
            3 => r.between(2, 12),
            4 => r.pick(&[self.greatest, self.greatest - 1, self.greatest / 2 + 1, 1 << (self.bits / 2)]),
            5 => self.number(r),
            _ => self.number(r).saturating_abs(),
        };
        match r.below(16) {
            0 => (1, 1),
            1 => (self.number(r), m),
            2 if m > 0 => (-m, m),
            3 if m > 0 => (self.least, m),
            _ if m > 0 => (self.number(r).rem_euclid(m), m),
            _ => (self.number(r), m),
        }
    }

    /// A second congruence, now and then one that has to do with the first.
    fn congruence_beside(self, r: &mut Random, (c, m): Pair) -> Pair {
        match r.below(8) {
            0 => (c, m),
            1 if m > 0 => {
                let n = m.saturating_mul(r.between(2, 5));
                (c.rem_euclid(n), n)
            }
            2 => (c, 0),
            _ => self.congruence(r),
        }
    }

    /// The k-th random question, intervals and congruences in turns.
    pub fn question(self, k: u64, r: &mut Random) -> String {
        let all = operations(if k % 2 == 0 { "mended-interval" } else { "mended-congruence" }).unwrap();
        let (name, takes) = all[(k / 2 % all.len() as u64) as usize];
        let numbers = match takes {
            Takes::Interval => vec![self.interval(r)],
            Takes::TwoIntervals => vec![self.interval(r), self.interval(r)],
            Takes::Congruence => vec![self.congruence(r)],
            _ => {
                let x = self.congruence(r);
                vec![x, self.congruence_beside(r, x)]
            }
        };
        let flat: Vec<i64> = numbers.iter().flat_map(|p| [p.0, p.1]).collect();
        format!("at {} {name}{}", self.bits, listed(&flat))
    }

    /// Every pair of corner ends, of the width and just outside of it.
    fn intervals(self) -> Vec<Pair> {
        let (l, g) = (self.least, self.greatest);
        let ends = [l - 1, l, l + 1, -1, 0, 1, g - 1, g, g + 1];
        ends.iter().flat_map(|a| ends.iter().map(|b| (*a, *b))).collect()
    }

    fn congruences(self) -> Vec<Pair> {
        let (l, g) = (self.least, self.greatest);
        let mut all = vec![(1, 1), (3, 3), (0, -1), (g + 1, 0), (l - 1, 0), (0, g + 1), (l - 1, 3)];
        for m in [0, 1, 2, 3, 1 << (self.bits / 2), g / 2 + 1, g] {
            let constants = match m {
                0 => vec![l, l + 1, -1, 0, 1, 2, g],
                _ => vec![l, -m, 1 - m, -1, 0, 1, m - 1],
            };
            all.extend(constants.into_iter().filter(|c| m == 0 || *c < m).map(|c| (c, m)));
        }
        all
    }

    /// The fixed list: corner values, thinned, and random questions.
    pub fn list(self, r: &mut Random) -> Vec<String> {
        let mut out = Vec::new();
        for family in ["mended-interval", "mended-congruence"] {
            let all: &[Operation] = operations(family).unwrap();
            for (name, takes) in all {
                let name = format!("at {} {name}", self.bits);
                match takes {
                    Takes::Interval => out.extend(self.intervals().iter().map(|(a, b)| format!("{name} {a} {b}"))),
                    Takes::TwoIntervals => pairs(&mut out, &name, &self.intervals(), 12, r),
                    Takes::Congruence => out.extend(self.congruences().iter().map(|(a, b)| format!("{name} {a} {b}"))),
                    _ => pairs(&mut out, &name, &self.congruences(), 9, r),
                }
            }
        }
        out.extend((0..600).map(|k| self.question(k, r)));
        out
    }
}
