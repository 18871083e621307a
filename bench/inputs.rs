//! Inputs, dense in corners and else random; a seed gives the same ones everywhere.

/// A small generator (splitmix64).
pub struct Random(u64);

const CORNERS: [i64; 19] = [
    i64::MIN,
    i64::MIN + 1,
    -(1 << 62),
    -(1 << 32),
    -(1 << 31),
    -6,
    -2,
    -1,
    0,
    1,
    2,
    6,
    (1 << 31) - 1,
    1 << 32,
    3037000499,
    3037000500,
    1 << 62,
    i64::MAX - 1,
    i64::MAX,
];

impl Random {
    pub fn new(seed: u64) -> Random {
        Random(seed.wrapping_mul(0x9E37_79B9_7F4A_7C15) ^ 0x5851_F42D_4C95_7F2D)
    }

    fn next(&mut self) -> u64 {
        self.0 = self.0.wrapping_add(0x9E37_79B9_7F4A_7C15);
        let mut z = self.0;
        z = (z ^ (z >> 30)).wrapping_mul(0xBF58_476D_1CE4_E5B9);
        z = (z ^ (z >> 27)).wrapping_mul(0x94D0_49BB_1331_11EB);
        z ^ (z >> 31)
    }

    fn below(&mut self, n: u64) -> u64 {
        self.next() % n
    }

    fn corner(&mut self) -> i64 {
        CORNERS[self.below(CORNERS.len() as u64) as usize]
    }

    pub fn number(&mut self) -> i64 {
        match self.below(8) {
            0 | 1 => self.corner(),
            2 => self.corner().wrapping_add(self.below(7) as i64 - 3),
            3 | 4 => self.below(2001) as i64 - 1000,
            5 | 6 => (self.next() as i64) >> self.below(63),
            _ => self.next() as i64,
        }
    }

    pub fn interval(&mut self) -> (i64, i64) {
        let (a, b) = (self.number(), self.number());
        match self.below(16) {
            0 => (i64::MAX, i64::MIN),
            1 => (a, b),
            2 => (i64::MIN, i64::MAX),
            3 => (a, i64::MAX),
            4 => (i64::MIN, a),
            5 | 6 => (a, a),
            _ => (a.min(b), a.max(b)),
        }
    }

    /// Mostly of the domain, mostly canonical.
    pub fn congruence(&mut self) -> (i64, i64) {
        let n = self.number();
        let m = match self.below(6) {
            0 => 0,
            1 => 1 + self.below(12) as i64,
            2 => [2, 3, 5, 7, 30][self.below(5) as usize] * (1 + self.below(60) as i64),
            3 => (self.next() >> 1 >> self.below(62)) as i64,
            _ => n.unsigned_abs().min(i64::MAX as u64) as i64,
        };
        match self.below(24) {
            0 => (n, self.number()),
            1 => (1, 1),
            2 => (0, 1),
            3 if m > 0 => (-m, m),
            _ if m > 0 => (self.number().rem_euclid(m), m),
            _ => (n, m),
        }
    }
}
