//! The fixed lists: every corner once, thinned where there are too many, and random questions after them.
use crate::questions::{
    operations, question, Operation, Random, Takes, CONGRUENCE, MENDED_CONGRUENCE, SIGNS, TRANSFER,
};
use crate::words::listed;

const ENDS: [i64; 7] = [i64::MIN, i64::MIN + 1, -1, 0, 1, i64::MAX - 1, i64::MAX];

const NUMBERS: [i64; 16] = [
    i64::MIN,
    i64::MIN + 1,
    -(1 << 62),
    -(1 << 32),
    -6,
    -1,
    0,
    1,
    2,
    3,
    9,
    1 << 31,
    1 << 32,
    1 << 62,
    i64::MAX - 1,
    i64::MAX,
];

const MODULI: [i64; 7] = [0, 1, 2, 3, 1 << 31, 1 << 62, i64::MAX];

pub type Pair = (i64, i64);

fn intervals() -> Vec<Pair> {
    ENDS.iter().flat_map(|a| ENDS.iter().map(|b| (*a, *b))).collect()
}

/// Constants at both ends of what a modulus allows, bottom, and some outside the domain.
fn congruences() -> Vec<Pair> {
    let mut all = vec![(1, 1), (3, 3), (2, 1), (0, -1), (-5, -3), (i64::MAX, i64::MIN)];
    for m in MODULI {
        let mut constants = match m {
            0 => vec![i64::MIN, i64::MIN + 1, -2, -1, 0, 1, 2, i64::MAX],
            _ => vec![i64::MIN, -m, 1 - m, -1, 0, 1, m - 1],
        };
        constants.sort_unstable();
        constants.dedup();
        all.extend(constants.into_iter().filter(|c| m == 0 || *c < m).map(|c| (c, m)));
    }
    all
}

/// The questions of one operation: all of them, or one pair in `thin`, each operation another one.
fn asked(out: &mut Vec<String>, name: &str, takes: Takes, thin: u64, r: &mut Random) {
    match takes {
        Takes::Nothing => out.push(name.to_string()),
        Takes::Number => out.extend(NUMBERS.iter().map(|n| format!("{name} {n}"))),
        Takes::TwoNumbers => {
            for a in NUMBERS {
                out.extend(NUMBERS.iter().map(|b| format!("{name} {a} {b}")));
            }
        }
        Takes::Sign => out.extend(SIGNS.iter().map(|s| format!("{name} {s}"))),
        Takes::TwoSigns => {
            for s in SIGNS {
                out.extend(SIGNS.iter().map(|t| format!("{name} {s} {t}")));
            }
        }
        Takes::TwoSignsAndTruth => {
            for s in SIGNS {
                for t in SIGNS {
                    out.extend(["true", "false"].iter().map(|b| format!("{name} {s} {t} {b}")));
                }
            }
        }
        Takes::Interval => out.extend(intervals().iter().map(|(a, b)| format!("{name} {a} {b}"))),
        Takes::Congruence | Takes::FreePair => {
            out.extend(congruences().iter().map(|(c, m)| format!("{name} {c} {m}")));
        }
        Takes::TwoIntervals => pairs(out, name, &intervals(), thin, r),
        Takes::TwoCongruences => pairs(out, name, &congruences(), thin, r),
    }
}

pub fn pairs(out: &mut Vec<String>, name: &str, values: &[Pair], thin: u64, r: &mut Random) {
    for (a, b) in values {
        for (c, d) in values {
            if r.once_in(thin) {
                out.push(format!("{name}{}", listed(&[*a, *b, *c, *d])));
            }
        }
    }
}

fn corners(family: &str, thin: u64, r: &mut Random) -> Vec<String> {
    let mut out = Vec::new();
    let all: &[Operation] = operations(family).unwrap();
    for (name, takes) in all {
        asked(&mut out, name, *takes, thin, r);
    }
    out
}

fn transfers(r: &mut Random) -> Vec<String> {
    let mut out = Vec::new();
    for (name, takes) in TRANSFER {
        for number in (-1..=17).chain([i64::MIN, 258, i64::MAX]) {
            let own = if name.ends_with("unary") { 14..=15 } else { 2..=13 };
            let thin = if own.contains(&number) { 16 } else { 400 };
            asked(&mut out, &format!("{name} {number}"), *takes, thin, r);
        }
    }
    out
}

/// One in how many pairs stays, and how many random questions follow.
fn sizes(family: &str) -> (u64, u64) {
    let thin = |all: &[Operation]| {
        let pairs = all.iter().filter(|o| o.1 == Takes::TwoCongruences).count() * congruences().len().pow(2);
        (pairs / 5000).max(1) as u64
    };
    match family {
        "interval" => (1, 1500),
        "congruence" => (thin(CONGRUENCE), 1200),
        "mended-interval" => (1, 1000),
        "mended-congruence" => (thin(MENDED_CONGRUENCE), 1200),
        "transfer" => (1, 800),
        "sheet" => (1, 900),
        _ => (1, 100),
    }
}

/// The fixed list of a family.
pub fn list(family: &str) -> Option<Vec<String>> {
    let mut r = Random::new(2026);
    if let Some(ends) = crate::sized::named(family) {
        return Some(ends.list(&mut r));
    }
    let (thin, random) = sizes(family);
    let mut out = match family {
        "transfer" => transfers(&mut r),
        "sheet" => sheets(),
        _ if operations(family).is_some() => corners(family, thin, &mut r),
        _ => return None,
    };
    for k in 0..random {
        out.push(question(family, k, &mut r)?);
    }
    Some(out)
}

/// Sheets that show one thing each.
fn sheets() -> Vec<String> {
    let hex = [
        "-",
        "00",
        "0000",
        "01",
        "0100",
        "010002",
        "01000200",
        "0301020800F403040001",
        // numbers: longer than shortest, ten bytes, 2^64 and more
        "8000",
        "8100",
        "808000",
        "0180",
        "01008100",
        "0100FFFFFFFFFFFFFFFFFF01",
        "0100FEFFFFFFFFFFFFFFFF01",
        "0100FFFFFFFFFFFFFFFFFF02",
        "0100FFFFFFFFFFFFFFFFFF7F",
        "0100FFFFFFFFFFFFFFFFFF80",
        "0100FFFFFFFFFFFFFFFFFF81",
        "0100FFFFFFFFFFFFFFFFFF00",
        "0100FFFFFFFFFFFFFFFFFF",
        "0100FFFFFFFFFFFFFFFFFFFF01",
        "010080808080808080808001",
        "010080808080808080808002",
        "FFFFFFFFFFFFFFFFFF01",
        "FFFFFFFFFFFFFFFFFFFF",
        "FFFFFFFFFFFFFFFFFF02",
        // counts
        "8002",
        "8102",
        "8202",
        "810200",
        "80FF",
        "FF",
        // operators
        "0111",
        "0110",
        "017F",
        "018101",
        "0191",
        "011100",
        "02000011",
        "0102",
        "010F",
        "010E",
        "0110000000",
        // operands
        "010200",
        "01020000",
        "020000020000",
        "020000020001",
        "02000002000100",
        "0200000F01",
        "0200000F00",
        "0200000F8000",
        "020000100000",
        "02000010000000",
        "02000010000001",
        "02000010000100",
        "02000010010000",
        "0200000EFFFFFFFFFFFFFFFFFF01",
        // inputs
        "01010000",
        "01010200",
        "01010001",
        "01010100",
        "010103",
        "01010302",
        "01010203",
        "01010304",
        "0101FFFFFFFFFFFFFFFFFF01FEFFFFFFFFFFFFFFFF01",
        "0101FEFFFFFFFFFFFFFFFF01FFFFFFFFFFFFFFFFFF01",
        "01010480",
        "0101048000",
        "01010200FF",
        // a range with its sign Top, its negation
        "0400040102040300010E02",
    ];
    let mut out: Vec<String> = hex.iter().map(|h| format!("sheet read {h}")).collect();
    out.extend(hex.iter().map(|h| format!("sheet check {h}")));
    out.extend(hex.iter().map(|h| format!("sheet run {h}")));
    out.extend(hex.iter().map(|h| format!("sheet run {h} 2")));
    let odd = [
        "",
        " read",
        " read ",
        " read 0",
        " read 0G",
        " read 000",
        " read 0x00",
        " read 00 ",
        " read --",
        " read -00",
        " read 01000a",
        " read 01000A",
        " run",
        " run ",
        " run 00 ",
        " run 00 x",
        " run 00 1",
        " run 00 9223372036854775808",
        " run 0301020800f403040001 4",
        " write ",
        " write x",
        " write 0 0 0 0 ",
        " write 0 0 0 9223372036854775808",
        " check",
        " check 0",
        " check 00 ",
        " check 00 1",
        " checks 00",
        " reads 00",
    ];
    out.extend(odd.iter().map(|w| format!("sheet{w}")));
    let numbers = [
        "",
        " 0",
        " 0 0",
        " 0 0 0",
        " 0 5 0 0",
        " 0 -9223372036854775808 0 0",
        " 0 9223372036854775807 0 0",
        " 0 -1 0 0 0",
        " 0 5 1 0",
        " 0 5 0 -1",
        " 1 0 0 0",
        " 1 0 0 1",
        " 1 1 0 0",
        " 1 1 0 1",
        " 1 -9223372036854775808 9223372036854775807 0",
        " 1 9223372036854775807 -9223372036854775808 0",
        " 17 0 0 0",
        " -1 0 0 0",
        " 17 0 0 1",
        " 256 0 0 0",
        " 2 0 0 0",
        " 0 5 0 0 2 0 0 0",
        " 0 5 0 0 2 0 1 0",
        " 0 5 0 0 2 -1 0 0",
        " 0 5 0 0 2 0 0 1",
        " 0 5 0 0 2 0 9 1",
        " 0 5 0 0 15 0 0 0",
        " 0 5 0 0 15 0 1 0",
        " 0 5 0 0 14 0 0 1",
        " 0 5 0 0 16 0 0 0",
        " 0 5 0 0 16 0 0 1",
        " 0 5 0 0 16 0 0 -1",
        " 0 5 0 0 16 0 9223372036854775807 0",
        " 9223372036854775807 0 0 0",
        " -9223372036854775808 0 0 0",
        " 1 1 4 0 0 250 0 0 4 0 1 0",
    ];
    out.extend(numbers.iter().map(|n| format!("sheet write{n}")));
    out.push(format!("sheet write{}", listed(&[0; 1024])));
    out.push(format!("sheet write{}", listed(&[0; 1028])));
    out.push(format!("sheet write{}", listed(&[0; 1029])));
    out.extend(numbered_steps());
    out.extend(longest());
    out
}

/// The longest sheet there is (5,378 bytes), longer bytes than that, and the most that a line can hold.
fn longest() -> Vec<String> {
    let steps = [1, i64::MIN, i64::MAX, 0].repeat(256);
    let bytes = crate::sheet::write(&steps).unwrap();
    let digits = crate::words::hex(&bytes);
    vec![
        format!("sheet read {digits}"),
        format!("sheet read {digits}00"),
        format!("sheet check {digits}"),
        format!("sheet check {digits}00"),
        format!("sheet write{}", listed(&steps)),
        format!("sheet run {digits}{}", listed(&[i64::MIN; 256])),
        format!("sheet run {digits}{}", listed(&[i64::MIN; 255])),
        format!("sheet read {}", "00".repeat(16_378)),
    ]
}

/// Every operator run on corner numbers, and checked on a range between two of them beside a constant.
fn numbered_steps() -> Vec<String> {
    let mut out = Vec::new();
    for operator in 2..=16 {
        for a in [i64::MIN, -7, -1, 0, 1, 2, i64::MAX] {
            for b in [i64::MIN, -2, -1, 0, 1, 3, i64::MAX] {
                let step: [i64; 4] = match operator {
                    14 | 15 => [operator, 0, 0, 0],
                    16 => [16, 0, 1, 0],
                    _ => [operator, 0, 1, 0],
                };
                let all = [[1, i64::MIN, i64::MAX, 0], [0, b, 0, 0], step].concat();
                let bytes = crate::sheet::write(&all).unwrap();
                out.push(format!("sheet run {} {a}", crate::words::hex(&bytes)));
                let all = [[1, a.min(b), a.max(b), 0], [0, b, 0, 0], step].concat();
                let bytes = crate::sheet::write(&all).unwrap();
                out.push(format!("sheet check {}", crate::words::hex(&bytes)));
            }
        }
    }
    out
}

/// Lines that no family knows, and the longest that is still read.
pub fn bad() -> Vec<String> {
    let lines = [
        "",
        " ",
        "hello",
        "number",
        "number ",
        "number gcd",
        "number gcd 1",
        "number gcd 1 2 3",
        "number gcd 1  2",
        " number gcd 1 2",
        "number gcd 1 2 ",
        "number  gcd 1 2",
        "number gcd +1 2",
        "number gcd 1 2\r",
        "number\tgcd\t1\t2",
        "number gcd - 2",
        "number gcd 1 --2",
        "number gcd 1 2-",
        "number gcd 9223372036854775808 1",
        "number gcd -9223372036854775809 1",
        "number gcd 1 18446744073709551616",
        "number gcd 1 100000000000000000000000000000000000000000",
        "number gcd 1 0x10",
        "number gcd 1 1.0",
        "number gcd a b",
        "NUMBER gcd 1 2",
        "number GCD 1 2",
        "numbers gcd 1 2",
        "numbe gcd 1 2",
        "number gc 1 2",
        "number gcdx 1 2",
        "gcd 1 2",
        "gcd number 1 2",
        "number max 1 2",
        "not understood",
        "mended",
        "mended number gcd 1 2",
        "a_very_long_word_that_no_family_has 1 2",
        "number a_very_long_word_that_no_family_has 1 2",
    ];
    let mut out: Vec<String> = lines.iter().map(|l| l.to_string()).collect();
    out.push("x".repeat(40_000));
    // the longest line that is read, and one byte more
    let zeros = crate::words::LONGEST - "number gcd 6 4".len();
    out.push(format!("number gcd {}6 4", "0".repeat(zeros)));
    out.push(format!("number gcd {}6 4", "0".repeat(zeros + 1)));
    out.push("number gcd 6 4 again".to_string());
    out
}
