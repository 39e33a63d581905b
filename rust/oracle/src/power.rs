//! The power as document 01 words it, in the place of `powf`.

/// x to the f, for 0 < x ≤ 1 and f ≥ 1: products for f's whole part, repeated square roots for
/// its fraction.
pub fn power(x: f64, f: f64) -> f64 {
    if x == 1.0 {
        return 1.0;
    }
    if f >= 2f64.powi(63) {
        return 0.0;
    }
    with_roots(x, f.fract(), whole_power(x, f.trunc() as u64))
}

/// Starts at x and goes through n's binary digits below the highest.
fn whole_power(x: f64, n: u64) -> f64 {
    let mut product = x;
    for digit in (0..n.ilog2()).rev() {
        product *= product;
        if n >> digit & 1 == 1 {
            product *= x;
        }
    }
    product
}

/// Thirty repeated roots of x, one for each digit of the fraction.
fn with_roots(x: f64, fraction: f64, start: f64) -> f64 {
    let mut product = start;
    let mut root = x;
    let mut left = fraction;
    for _ in 0..30 {
        root = root.sqrt();
        left *= 2.0;
        if left >= 1.0 {
            left -= 1.0;
            product *= root;
        }
    }
    product
}

/// `powf` by another name, for the copy that takes this power.
pub trait PowerOfDocument01 {
    fn power_of_document_01(self, f: f64) -> f64;
}

impl PowerOfDocument01 for f64 {
    fn power_of_document_01(self, f: f64) -> f64 {
        crate::watch::power_taken(self, f);
        power(self, f)
    }
}

#[cfg(test)]
mod tests {
    use super::power;

    #[test]
    fn worked() {
        assert_eq!(power(0.25, 2.5), 0.03125);
        assert_eq!(0.25_f64.powf(2.5), 0.03125);
        assert_eq!(power(1.0, 1e300), 1.0);
        assert_eq!(power(0.999, f64::INFINITY), 0.0);
        assert_eq!(power(0.5, 10.0), 2f64.powi(-10));
        assert_eq!(power(0.0625, 1.75), 2f64.powi(-7));
    }
}
