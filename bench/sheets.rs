//! Sheets of many multiplications and of many divisions, and calls of the check and the run.

extern "C" {
    fn tunisaypa_check(bytes: *const u8, count: usize, room: *mut i64, length: usize, place: *mut usize) -> u8;
    fn tunisaypa_run(
        bytes: *const u8,
        count: usize,
        inputs: *const i64,
        many: usize,
        room: *mut i64,
        length: usize,
        place: *mut usize,
    ) -> u8;
}

fn number(out: &mut Vec<u8>, mut n: u64) {
    while n >= 128 {
        out.push(n as u8 | 128);
        n >>= 7;
    }
    out.push(n as u8);
}

fn signed(out: &mut Vec<u8>, n: i64) {
    number(out, ((n << 1) ^ (n >> 63)) as u64);
}

/// A kind's first four steps: two inputs and two constants. All later ones work on them or on each other's results.
const INPUTS: [(i64, i64); 2] = [(1, 4), (-1000, 1000)];

/// A sheet of so many steps, and its inputs' numbers.
pub fn sheet(kind: &str, steps: u64) -> (Vec<u8>, Vec<i64>) {
    let mut out = Vec::new();
    number(&mut out, steps);
    for (low, high) in INPUTS {
        out.push(1);
        signed(&mut out, low);
        signed(&mut out, high);
    }
    for constant in [250, 6] {
        out.push(0);
        signed(&mut out, constant);
    }
    for k in 4..steps {
        let (operator, a, b) = match kind {
            // products of products of the first four, begun anew every four steps
            "mul" if k % 4 == 0 => (4, k / 4 % 4, (k / 16 + 1) % 4),
            "mul" => (4, k - 1, k % 4),
            // quotients and remainders of each other, by what can't be 0
            _ if k % 2 == 0 => (5, k - 1, [0, 2, 3][(k / 2 % 3) as usize]),
            _ => (6, k - 1, [0, 2, 3][(k / 2 % 3) as usize]),
        };
        out.push(operator);
        number(&mut out, a);
        number(&mut out, b);
    }
    (out, vec![3, -777])
}

pub fn check(bytes: &[u8], room: &mut [i64], place: &mut usize) -> u8 {
    unsafe { tunisaypa_check(bytes.as_ptr(), bytes.len(), room.as_mut_ptr(), room.len(), place) }
}

pub fn run(bytes: &[u8], inputs: &[i64], room: &mut [i64], place: &mut usize) -> u8 {
    unsafe {
        tunisaypa_run(
            bytes.as_ptr(),
            bytes.len(),
            inputs.as_ptr(),
            inputs.len(),
            room.as_mut_ptr(),
            room.len(),
            place,
        )
    }
}
