//! A reference for what the Rust doesn't answer: the mended twins, straight from the words of document 01,
//! over whole numbers that never overflow (i128) and for any width. No line of it is taken from the Rust.
use std::cmp::Ordering;

/// The numbers of a width: from `least` to `greatest`.
#[derive(Clone, Copy, PartialEq, Eq, Debug)]
pub struct Width {
    pub least: i128,
    pub greatest: i128,
}

pub const W64: Width = Width {
    least: i64::MIN as i128,
    greatest: i64::MAX as i128,
};

impl Width {
    pub fn fits(self, n: i128) -> bool {
        self.least <= n && n <= self.greatest
    }
}

/// A value, or the number of its refusal.
pub type Answer<T> = Result<T, u8>;

// ---------------------------------------------------------------- numbers

pub fn gcd(a: i128, b: i128) -> i128 {
    if b == 0 {
        a.abs()
    } else {
        gcd(b, a % b)
    }
}

pub fn lcm(a: i128, b: i128) -> i128 {
    if a == 0 || b == 0 {
        0
    } else {
        (a / gcd(a, b) * b).abs()
    }
}

pub fn fitting(w: Width, n: i128) -> Answer<i128> {
    if w.fits(n) {
        Ok(n)
    } else {
        Err(2)
    }
}

// ---------------------------------------------------------------- comparisons

#[derive(Clone, Copy, PartialEq, Eq, Debug)]
pub enum Comparison {
    Equal,
    Less,
    Greater,
    LessOrEqual,
    GreaterOrEqual,
}

pub const COMPARISONS: [Comparison; 5] = [
    Comparison::Equal,
    Comparison::Less,
    Comparison::Greater,
    Comparison::LessOrEqual,
    Comparison::GreaterOrEqual,
];

impl Comparison {
    pub fn holds(self, x: i128, y: i128) -> bool {
        match self {
            Comparison::Equal => x == y,
            Comparison::Less => x < y,
            Comparison::Greater => x > y,
            Comparison::LessOrEqual => x <= y,
            Comparison::GreaterOrEqual => x >= y,
        }
    }
}

/// What a comparison of two sets comes to: it holds for every pair, for none, or for some (and beside an empty side).
#[derive(Clone, Copy, PartialEq, Eq, Debug)]
pub enum Truth {
    True,
    False,
    Both,
}

fn truth(every: bool, none: bool, empty: bool) -> Truth {
    match (empty, every, none) {
        (false, true, _) => Truth::True,
        (false, _, true) => Truth::False,
        _ => Truth::Both,
    }
}

// ---------------------------------------------------------------- signs

/// A subset of {negative, zero, positive}: 1, 2 and 4 stand for these.
#[derive(Clone, Copy, PartialEq, Eq, Debug)]
pub struct Sign(pub u8);

pub const NEGATIVE: Sign = Sign(1);
pub const ZERO: Sign = Sign(2);
pub const POSITIVE: Sign = Sign(4);
pub const NON_POS: Sign = Sign(3);
pub const NON_ZERO: Sign = Sign(5);
pub const NON_NEG: Sign = Sign(6);
pub const TOP: Sign = Sign(7);
pub const BOTTOM: Sign = Sign(0);

const NAMES: [(&str, Sign); 8] = [
    ("Top", TOP),
    ("Bottom", BOTTOM),
    ("Negative", NEGATIVE),
    ("Zero", ZERO),
    ("Positive", POSITIVE),
    ("NonNeg", NON_NEG),
    ("NonZero", NON_ZERO),
    ("NonPos", NON_POS),
];

pub fn all_signs() -> impl Iterator<Item = Sign> {
    (0..8).map(Sign)
}

impl Sign {
    pub fn name(self) -> &'static str {
        NAMES.iter().find(|(_, s)| *s == self).unwrap().0
    }

    /// Its number in the Rust's order.
    pub fn index(self) -> i128 {
        NAMES.iter().position(|(_, s)| *s == self).unwrap() as i128
    }

    pub fn named(word: &[u8]) -> Option<Sign> {
        NAMES.iter().find(|(n, _)| n.as_bytes() == word).map(|(_, s)| *s)
    }

    pub fn of_number(n: i128) -> Sign {
        match n.cmp(&0) {
            Ordering::Less => NEGATIVE,
            Ordering::Equal => ZERO,
            Ordering::Greater => POSITIVE,
        }
    }

    /// The least sign that holds all of these.
    pub fn of_all(numbers: impl IntoIterator<Item = i128>) -> Sign {
        numbers.into_iter().fold(BOTTOM, |s, n| s.join(Sign::of_number(n)))
    }

    pub fn join(self, other: Sign) -> Sign {
        Sign(self.0 | other.0)
    }

    pub fn meet(self, other: Sign) -> Sign {
        Sign(self.0 & other.0)
    }

    /// Two numbers of each kind that the sign holds: enough to show each way in which sums, products and order can go.
    pub fn some(self) -> Vec<i128> {
        (-2..=2).filter(|n| Sign::of_number(*n).0 & self.0 != 0).collect()
    }

    pub fn pairs(self, other: Sign) -> Vec<(i128, i128)> {
        let right = other.some();
        self.some()
            .into_iter()
            .flat_map(|x| right.iter().map(move |y| (x, *y)).collect::<Vec<_>>())
            .collect()
    }

    pub fn least(self, other: Sign, work: impl Fn(i128, i128) -> i128) -> Sign {
        Sign::of_all(self.pairs(other).into_iter().map(|(x, y)| work(x, y)))
    }

    pub fn mul(self, other: Sign) -> Sign {
        self.least(other, |x, y| x * y)
    }

    /// 000's rule on the product, with Top for NonZero.
    pub fn div(self, other: Sign) -> Sign {
        match self.mul(other) {
            POSITIVE => NON_NEG,
            NEGATIVE => NON_POS,
            NON_ZERO => TOP,
            s => s,
        }
    }

    /// As ported: a remainder has the left side's sign, or is 0.
    pub fn rem(self) -> Sign {
        if self == BOTTOM {
            BOTTOM
        } else {
            self.join(ZERO)
        }
    }

    pub fn of_truth(t: Truth) -> Sign {
        match t {
            Truth::True => POSITIVE,
            Truth::False => ZERO,
            Truth::Both => NON_NEG,
        }
    }

    pub fn compare(self, how: Comparison, other: Sign) -> Sign {
        let pairs = self.pairs(other);
        let holding = pairs.iter().filter(|(x, y)| how.holds(*x, *y)).count();
        Sign::of_truth(truth(holding == pairs.len(), holding == 0, pairs.is_empty()))
    }

    /// Equal if all pairs are, Less if the left is never above the right, Greater if never below; none beside Bottom.
    pub fn weak_cmp(self, other: Sign) -> Option<Ordering> {
        let pairs = self.pairs(other);
        if pairs.is_empty() {
            None
        } else if pairs.iter().all(|(x, y)| x == y) {
            Some(Ordering::Equal)
        } else if pairs.iter().all(|(x, y)| x <= y) {
            Some(Ordering::Less)
        } else if pairs.iter().all(|(x, y)| x >= y) {
            Some(Ordering::Greater)
        } else {
            None
        }
    }

    pub fn not(self) -> Sign {
        match self {
            BOTTOM => BOTTOM,
            ZERO => POSITIVE,
            POSITIVE => ZERO,
            _ => NON_NEG,
        }
    }

    /// 000's and: Zero decides, two Positives are Positive, else either.
    pub fn and(self, other: Sign) -> Sign {
        if self == ZERO || other == ZERO {
            ZERO
        } else if self == POSITIVE && other == POSITIVE {
            POSITIVE
        } else {
            NON_NEG
        }
    }

    /// 000's or: Positive decides, two Zeros are Zero, else either.
    pub fn or(self, other: Sign) -> Sign {
        if self == POSITIVE || other == POSITIVE {
            POSITIVE
        } else if self == ZERO && other == ZERO {
            ZERO
        } else {
            NON_NEG
        }
    }
}

// ---------------------------------------------------------------- intervals

/// The whole numbers from min to max.
#[derive(Clone, Copy, PartialEq, Eq, Debug)]
pub struct Interval {
    pub min: i128,
    pub max: i128,
}

pub fn range(min: i128, max: i128) -> Interval {
    Interval { min, max }
}

impl Width {
    pub fn top(self) -> Interval {
        range(self.least, self.greatest)
    }

    pub fn bottom(self) -> Interval {
        range(self.greatest, self.least)
    }

    pub fn canonical(self, i: Interval) -> bool {
        self.fits(i.min) && self.fits(i.max) && (i.min <= i.max || i == self.bottom())
    }

    /// Refusal 1 goes first of all.
    fn admit(self, values: &[Interval]) -> Answer<()> {
        if values.iter().all(|i| self.canonical(*i)) {
            Ok(())
        } else {
            Err(1)
        }
    }

    /// The least range of these numbers, if its ends fit.
    fn hull(self, numbers: &[i128]) -> Answer<Interval> {
        let least = fitting(self, *numbers.iter().min().unwrap())?;
        let greatest = fitting(self, *numbers.iter().max().unwrap())?;
        Ok(range(least, greatest))
    }

    pub fn interval_neg(self, x: Interval) -> Answer<Interval> {
        self.admit(&[x])?;
        if x.empty() {
            Ok(self.bottom())
        } else {
            self.hull(&[-x.min, -x.max])
        }
    }

    /// Sums, differences and products reach their least and greatest at the corners, and so do quotients by divisors on one side of 0.
    pub fn interval_corners(self, x: Interval, y: Interval, work: impl Fn(i128, i128) -> i128) -> Answer<Interval> {
        self.admit(&[x, y])?;
        if x.empty() || y.empty() {
            return Ok(self.bottom());
        }
        self.hull(&[
            work(x.min, y.min),
            work(x.min, y.max),
            work(x.max, y.min),
            work(x.max, y.max),
        ])
    }

    /// The least range of all quotients; top where the divisor's range holds 0 besides other numbers, or MIN / -1 can occur.
    pub fn interval_div(self, x: Interval, y: Interval) -> Answer<Interval> {
        self.admit(&[x, y])?;
        if x.empty() || y.empty() || y == range(0, 0) {
            return Ok(self.bottom());
        }
        if y.holds(0) || (x.holds(self.least) && y.holds(-1)) {
            return Ok(self.top());
        }
        self.interval_corners(x, y, |a, b| a / b)
    }

    pub fn interval_rem(self, x: Interval, y: Interval) -> Answer<Interval> {
        self.admit(&[x, y])?;
        if x.empty() || y.empty() || y == range(0, 0) {
            return Ok(self.bottom());
        }
        if x.min == x.max && y.min == y.max {
            let (a, b) = (x.min, y.min);
            return if a == self.least && b == -1 {
                Err(2)
            } else {
                Ok(range(a % b, a % b))
            };
        }
        let m = y.min.abs().max(y.max.abs());
        Ok(if x == range(0, 0) {
            range(0, 0)
        } else if x.min >= 0 {
            range(0, m - 1)
        } else if x.max <= 0 {
            range(1 - m, 0)
        } else {
            range(1 - m, m - 1)
        })
    }

    pub fn interval_compare(self, how: Comparison, x: Interval, y: Interval) -> Answer<Interval> {
        self.admit(&[x, y])?;
        let (every, none) = match how {
            Comparison::Equal => (x.min == y.max && x.max == y.min, x.max < y.min || x.min > y.max),
            Comparison::Less => (x.max < y.min, x.min >= y.max),
            Comparison::Greater => (x.min > y.max, x.max <= y.min),
            Comparison::LessOrEqual => (x.max <= y.min, x.min > y.max),
            Comparison::GreaterOrEqual => (x.min >= y.max, x.max < y.min),
        };
        Ok(Interval::of_truth(truth(every, none, x.empty() || y.empty())))
    }

    /// An end of previous that is infinite is taken from new; nothing in, or an empty answer, gives bottom.
    pub fn interval_narrow(self, new: Interval, previous: Interval) -> Answer<Interval> {
        self.admit(&[new, previous])?;
        if new.empty() || previous.empty() {
            return Ok(self.bottom());
        }
        let min = if previous.min == self.least {
            new.min
        } else {
            previous.min
        };
        let max = if previous.max == self.greatest {
            new.max
        } else {
            previous.max
        };
        Ok(if min > max { self.bottom() } else { range(min, max) })
    }
}

impl Interval {
    pub fn empty(self) -> bool {
        self.min > self.max
    }

    pub fn holds(self, n: i128) -> bool {
        self.min <= n && n <= self.max
    }

    pub fn of_truth(t: Truth) -> Interval {
        match t {
            Truth::True => range(1, 1),
            Truth::False => range(0, 0),
            Truth::Both => range(0, 1),
        }
    }

    /// The least sign that holds its numbers.
    pub fn sign(self) -> Sign {
        if self.empty() {
            BOTTOM
        } else {
            Sign::of_all([-1, 0, 1].map(|n: i128| n.clamp(self.min, self.max)))
        }
    }

    pub fn text(self, w: Width) -> String {
        let end = |n: i128| {
            if n == w.greatest {
                "inf".to_string()
            } else if n == w.least {
                "-inf".to_string()
            } else {
                n.to_string()
            }
        };
        format!("[{}, {}]", end(self.min), end(self.max))
    }
}

// ---------------------------------------------------------------- congruences

/// (c, 0) is c alone, (c, m) all x with x - c divisible by m, (1, 1) nothing.
#[derive(Clone, Copy, PartialEq, Eq, Debug)]
pub struct Congruence {
    pub constant: i128,
    pub modulus: i128,
}

pub fn spaced(constant: i128, modulus: i128) -> Congruence {
    Congruence { constant, modulus }
}

/// All numbers that differ from `constant` by a multiple of `modulus`, as a canonical value; never bottom.
pub fn every(constant: i128, modulus: i128) -> Congruence {
    if modulus == 0 {
        spaced(constant, 0)
    } else {
        spaced(constant.rem_euclid(modulus), modulus)
    }
}

pub const ALL: Congruence = Congruence {
    constant: 0,
    modulus: 1,
};
pub const NOTHING: Congruence = Congruence {
    constant: 1,
    modulus: 1,
};

impl Congruence {
    pub fn in_domain(self) -> bool {
        self.modulus == 0 || (self.modulus > 0 && self.constant < self.modulus) || self == NOTHING
    }

    /// A value of the domain, made canonical.
    pub fn canonical(self) -> Congruence {
        if self == NOTHING {
            NOTHING
        } else {
            every(self.constant, self.modulus)
        }
    }

    pub fn holds(self, n: i128) -> bool {
        if self == NOTHING {
            false
        } else if self.modulus == 0 {
            n == self.constant
        } else {
            (n - self.constant) % self.modulus == 0
        }
    }

    fn single(self) -> Option<i128> {
        (self.modulus == 0).then_some(self.constant)
    }

    /// Whether no whole number is in both: single numbers by looking, others by the gcd of the moduli.
    pub fn disjoint(self, other: Congruence) -> bool {
        if self == NOTHING || other == NOTHING {
            return true;
        }
        match (self.single(), other.single()) {
            (Some(n), _) => !other.holds(n),
            (_, Some(n)) => !self.holds(n),
            _ => (self.constant - other.constant) % gcd(self.modulus, other.modulus) != 0,
        }
    }

    /// Whether each of its numbers is in the other.
    fn inside(self, other: Congruence) -> bool {
        if self == NOTHING {
            return true;
        }
        if other == NOTHING || (other.modulus == 0 && self.modulus != 0) {
            return false;
        }
        other.holds(self.constant) && (other.modulus == 0 || self.modulus % other.modulus == 0)
    }

    pub fn order(self, other: Congruence) -> Option<Ordering> {
        match (self.inside(other), other.inside(self)) {
            (true, true) => Some(Ordering::Equal),
            (true, false) => Some(Ordering::Less),
            (false, true) => Some(Ordering::Greater),
            _ => None,
        }
    }

    pub fn text(self) -> String {
        format!("{} mod {}", self.constant, self.modulus)
    }

    fn of_flag(flag: bool) -> Congruence {
        spaced(flag as i128, 0)
    }

    /// `=` by disjointness and single numbers, the other comparisons by single numbers alone (002).
    pub fn compare(self, how: Comparison, other: Congruence) -> Congruence {
        if how == Comparison::Equal && self.disjoint(other) {
            return Congruence::of_flag(false);
        }
        match (self.single(), other.single()) {
            (Some(x), Some(y)) => Congruence::of_flag(how.holds(x, y)),
            _ => ALL,
        }
    }

    pub fn and(self, other: Congruence) -> Congruence {
        match (self.single(), other.single()) {
            (Some(0), _) | (_, Some(0)) => spaced(0, 0),
            (Some(1), Some(1)) => spaced(1, 0),
            _ => ALL,
        }
    }

    pub fn or(self, other: Congruence) -> Congruence {
        match (self.single(), other.single()) {
            (Some(1), _) | (_, Some(1)) => spaced(1, 0),
            (Some(0), Some(0)) => spaced(0, 0),
            _ => ALL,
        }
    }

    pub fn not(self) -> Congruence {
        match self.single() {
            Some(0) => spaced(1, 0),
            Some(1) => spaced(0, 0),
            _ => ALL,
        }
    }
}

/// The number below `n` that `a` times it is 1 modulo n, for coprime a and n.
fn inverse(a: i128, n: i128) -> i128 {
    let (mut r, mut s) = ((a.rem_euclid(n), 1), (n, 0));
    while s.0 != 0 {
        let q = r.0 / s.0;
        (r, s) = (s, (r.0 - q * s.0, r.1 - q * s.1));
    }
    r.1.rem_euclid(n)
}

/// Operations of mended congruences, on values that are canonical already.
impl Width {
    /// A value of the domain, both of whose numbers are of the width.
    pub fn in_domain(self, x: Congruence) -> bool {
        self.fits(x.constant) && self.fits(x.modulus) && x.in_domain()
    }

    /// The numbers x with x - c divisible by m, or c alone: bottom if that single number doesn't fit.
    fn spacing(self, constant: i128, modulus: i128) -> Congruence {
        if modulus == 0 && !self.fits(constant) {
            NOTHING
        } else {
            every(constant, modulus)
        }
    }

    pub fn congruence_neg(self, x: Congruence) -> Congruence {
        if x == NOTHING {
            NOTHING
        } else {
            self.spacing(-x.constant, x.modulus)
        }
    }

    pub fn congruence_add(self, x: Congruence, y: Congruence) -> Congruence {
        if x == NOTHING || y == NOTHING {
            return NOTHING;
        }
        self.spacing(x.constant + y.constant, gcd(x.modulus, y.modulus))
    }

    pub fn congruence_sub(self, x: Congruence, y: Congruence) -> Congruence {
        if x == NOTHING || y == NOTHING {
            return NOTHING;
        }
        self.spacing(x.constant - y.constant, gcd(x.modulus, y.modulus))
    }

    pub fn congruence_mul(self, x: Congruence, y: Congruence) -> Congruence {
        if x == NOTHING || y == NOTHING {
            return NOTHING;
        }
        let products = [
            x.modulus * y.modulus,
            x.modulus * y.constant,
            y.modulus * x.constant,
            x.constant * y.constant,
        ];
        let modulus = gcd(gcd(products[0], products[1]), products[2]);
        if products.iter().all(|p| self.fits(*p)) && self.fits(modulus) {
            every(products[3], modulus)
        } else if x.modulus == 0 && y.modulus == 0 {
            NOTHING
        } else {
            ALL
        }
    }

    pub fn congruence_div(self, x: Congruence, y: Congruence) -> Congruence {
        if x == NOTHING || y == NOTHING || y == spaced(0, 0) {
            return NOTHING;
        }
        if y.modulus != 0 || x.constant % y.constant != 0 || x.modulus % y.constant != 0 {
            return ALL;
        }
        self.spacing(x.constant / y.constant, x.modulus / y.constant.abs())
    }

    pub fn congruence_join(self, x: Congruence, y: Congruence) -> Congruence {
        if x == NOTHING {
            return y;
        }
        if y == NOTHING {
            return x;
        }
        let modulus = gcd(gcd(x.modulus, y.modulus), x.constant - y.constant);
        if modulus > self.greatest {
            ALL
        } else {
            every(x.constant, modulus)
        }
    }

    pub fn congruence_meet(self, x: Congruence, y: Congruence) -> Congruence {
        if x.disjoint(y) {
            return NOTHING;
        }
        if x.modulus == 0 {
            return x;
        }
        if y.modulus == 0 {
            return y;
        }
        let modulus = lcm(x.modulus, y.modulus);
        if !self.fits(modulus) {
            return x;
        }
        // x.constant + x.modulus * t is in y for t = (y.constant - x.constant) / g over x.modulus / g, modulo y.modulus / g
        let g = gcd(x.modulus, y.modulus);
        let n = y.modulus / g;
        let t = ((y.constant - x.constant) / g).rem_euclid(n) * inverse(x.modulus / g, n) % n;
        every(x.constant + x.modulus * t, modulus)
    }
}
