//! The words of a question: what `ask` reads and writes, apart from any operation.

/// The longest line that is read, its end not counted.
pub const LONGEST: usize = 32_768;

pub const NOT_UNDERSTOOD: &str = "not understood";

/// The words of a line: single spaces stand between them, so two spaces enclose an empty word, which nothing knows.
pub fn words(line: &[u8]) -> Vec<&[u8]> {
    line.split(|b| *b == b' ').collect()
}

/// Digits with a `-` before them or not, of a number that is an i64; leading zeros are allowed.
pub fn number(word: &[u8]) -> Option<i64> {
    let (below, digits) = match word.split_first() {
        Some((b'-', rest)) => (true, rest),
        _ => (false, word),
    };
    if digits.is_empty() || !digits.iter().all(u8::is_ascii_digit) {
        return None;
    }
    let mut n: i128 = 0;
    for d in digits {
        n = n * 10 + i128::from(d - b'0');
        if n > 1 << 63 {
            return None;
        }
    }
    i64::try_from(if below { -n } else { n }).ok()
}

pub fn numbers(words: &[&[u8]]) -> Option<Vec<i64>> {
    words.iter().map(|w| number(w)).collect()
}

/// Two hexadecimal digits a byte, and `-` for no bytes.
pub fn bytes(word: &[u8]) -> Option<Vec<u8>> {
    if word == b"-" {
        return Some(Vec::new());
    }
    if word.is_empty() || word.len() % 2 != 0 {
        return None;
    }
    let digit = |b: u8| (b as char).to_digit(16).map(|d| d as u8);
    word.chunks(2).map(|p| Some(digit(p[0])? * 16 + digit(p[1])?)).collect()
}

pub fn hex(bytes: &[u8]) -> String {
    if bytes.is_empty() {
        return "-".to_string();
    }
    bytes.iter().map(|b| format!("{b:02X}")).collect()
}

/// Numbers, a space before each.
pub fn listed<T: std::fmt::Display>(numbers: &[T]) -> String {
    numbers.iter().map(|n| format!(" {n}")).collect()
}

pub fn refused(number: u8) -> String {
    format!("refused by {number}")
}
