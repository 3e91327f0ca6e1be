//! Whole cents: rounding, sums, and cutting an amount over weights.

/// The largest whole number not above a ÷ b.
pub fn down(a: i64, b: i64) -> i64 {
    a.div_euclid(b)
}

/// The whole number nearest to a ÷ b, halves up.
pub fn nearest(a: i64, b: i64) -> i64 {
    (2 * a + b).div_euclid(2 * b)
}

/// What units bear at a rate in hundredths of a cent: to the nearest cent, halves up.
pub fn at_rate(rate: i64, units: u32) -> i64 {
    (rate * i64::from(units) + 50).div_euclid(100)
}

/// The sum of a row of weights.
pub fn total(weights: &[u32]) -> u64 {
    weights.iter().map(|weight| u64::from(*weight)).sum()
}

/// Writes what each weight takes of the amount, after those before it.
pub fn split(amount: i64, whole: u64, weights: &[u32], out: &mut [i64]) {
    let mut run = 0i64;
    let mut before = 0i64;
    for (part, weight) in out.iter_mut().zip(weights) {
        run += i64::from(*weight);
        let upto = down(amount * run, whole as i64);
        *part = upto - before;
        before = upto;
    }
}

/// The parts of an amount by weights, which add up to it.
pub fn cut<const N: usize>(amount: i64, weights: [u32; N]) -> [i64; N] {
    let mut parts = [0; N];
    split(amount, total(&weights), &weights, &mut parts);
    parts
}
