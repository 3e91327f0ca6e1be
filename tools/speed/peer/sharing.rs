//! Sharing a pool among the members by their units.

use super::cents::{at_rate, nearest, split};

const MOST_CENTS: u64 = 4_000_000_000;

const MOST_UNITS: u64 = 2_000_000_000;

pub trait Rule {
    /// Tells the shares of all members, from a pool, their units and the total of these.
    fn share(&self, pool: i64, units: &[u32], total: u64, out: &mut [i64]);
}

/// Whether a pool can be shared over so many units; where it cannot, each place gets 0.
fn can_share(pool: i64, total: u64) -> bool {
    pool.unsigned_abs() <= MOST_CENTS && (1..=MOST_UNITS).contains(&total)
}

#[derive(Clone, Copy)]
pub struct Posted;

impl Rule for Posted {
    fn share(&self, pool: i64, units: &[u32], total: u64, out: &mut [i64]) {
        if !can_share(pool, total) {
            out.fill(0);
            return;
        }
        let rate = nearest(100 * pool, total as i64);
        for (share, units) in out.iter_mut().zip(units) {
            *share = at_rate(rate, *units);
        }
    }
}

#[derive(Clone, Copy)]
pub struct Ratio;

impl Rule for Ratio {
    fn share(&self, pool: i64, units: &[u32], total: u64, out: &mut [i64]) {
        if !can_share(pool, total) {
            out.fill(0);
            return;
        }
        split(pool, total, units, out);
    }
}
