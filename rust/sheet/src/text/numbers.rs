//! Numbers as words.

use std::str::FromStr;

/// Digits alone.
pub(super) fn whole<T: FromStr + PartialOrd>(word: &str, most: T) -> Option<T> {
    let digits = word.bytes().all(|byte| byte.is_ascii_digit());
    let number = digits.then(|| word.parse().ok())??;
    (number <= most).then_some(number)
}

/// Digits, perhaps behind a minus.
pub(super) fn signed<T: FromStr>(word: &str) -> Option<T> {
    let digits = word.strip_prefix('-').unwrap_or(word);
    let only = digits.bytes().all(|byte| byte.is_ascii_digit());
    only.then(|| word.parse().ok())?
}

/// A decimal number, rounded to the nearest float. One that is too large for a float is none, and
/// so is one that is not 0 but would be read as 0.
pub(super) fn float(word: &str) -> Option<f64> {
    let plain = word
        .bytes()
        .all(|byte| byte.is_ascii_digit() || b".-+eE".contains(&byte));
    let number: f64 = plain.then(|| word.parse().ok())??;
    let lost = number == 0.0 && has_size(word);
    (number.is_finite() && !lost).then_some(number)
}

/// Whether a digit before the exponent is not 0.
fn has_size(word: &str) -> bool {
    let digits = word.split(['e', 'E']).next().unwrap_or(word);
    digits.bytes().any(|byte| (b'1'..=b'9').contains(&byte))
}
