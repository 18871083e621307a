//! A stand-in for the crate number_theory, which can't be had: the two calls that numerical.rs makes,
//! as document 01 has them. The gcd is that of the absolute values and never negative, and panics where it is 2^63;
//! the lcm is that of the absolute values, 0 beside 0, and none where it doesn't fit.

pub trait NumberTheory: Sized {
    fn gcd(&self, other: Self) -> Self;
    fn lcm(&self, other: Self) -> Option<Self>;
}

fn common(a: u64, b: u64) -> u64 {
    let (mut a, mut b) = (a, b);
    while b != 0 {
        (a, b) = (b, a % b);
    }
    a
}

impl NumberTheory for i64 {
    fn gcd(&self, other: i64) -> i64 {
        match i64::try_from(common(self.unsigned_abs(), other.unsigned_abs())) {
            Ok(g) => g,
            Err(_) => panic!("attempt to take the gcd with overflow"),
        }
    }

    fn lcm(&self, other: i64) -> Option<i64> {
        let (a, b) = (self.unsigned_abs(), other.unsigned_abs());
        if a == 0 || b == 0 {
            return Some(0);
        }
        let product = u128::from(a / common(a, b)) * u128::from(b);
        i64::try_from(product).ok()
    }
}
