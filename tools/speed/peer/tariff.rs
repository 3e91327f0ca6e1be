//! The sheet of weights, the six heads of cost, and the thirteen component costs.

use super::cents::{cut, total};
use super::refusal::{Fault, Layer, Refusal};

const MOST_HEAD: u64 = 4_000_000_000;

const SETTLEMENT: [u32; 7] = [68_000, 8_000, 4_800, 3_200, 7_896, 104, 8_000];

#[derive(Clone, Copy)]
pub struct Sheet {
    division: [u32; 6],
    management: [u32; 4],
    split: [u32; 2],
}

impl Sheet {
    pub fn even() -> Sheet {
        Sheet {
            division: [167, 167, 167, 167, 166, 166],
            management: [250; 4],
            split: [500; 2],
        }
    }

    pub fn lay(
        &mut self,
        division: [u32; 6],
        management: [u32; 4],
        split: [u32; 2],
    ) -> Result<(), Fault> {
        let in_range = |weights: &[u32]| weights.iter().all(|weight| *weight <= 1000);
        if !(in_range(&division) && in_range(&management) && in_range(&split)) {
            return Err(Layer::Sheet.refuses(Refusal::Range));
        }
        if total(&division) != 1000 || total(&management) != 1000 {
            return Err(Layer::Sheet.refuses(Refusal::Weights));
        }
        *self = Sheet {
            division,
            management,
            split,
        };
        Ok(())
    }

    /// The thirteen component costs of six heads.
    pub fn costs(&self, heads: &Heads) -> [i64; 13] {
        let heads = heads.amounts;
        let division = cut(heads[0], self.division);
        let management = cut(division[4], self.management);
        let service = |i: usize| division[i] + management[i] + heads[i + 1];
        let [a, b] = cut(service(1), [self.split[0], 1000 - self.split[0]]);
        let [c, d] = cut(service(2), [self.split[1], 1000 - self.split[1]]);
        let [s1, s2, s3, s4, s5, s6, s7] = cut(division[5] + heads[5], SETTLEMENT);
        let (first, fourth) = (service(0), service(3));
        [first, a, b, c, d, fourth, s1, s2, s3, s4, s5, s6, s7]
    }
}

#[derive(Clone, Copy)]
pub struct Heads {
    pub amounts: [i64; 6],
}

/// An amount added to what a head holds, where the sum stays in range.
pub fn add_to_head(held: i64, amount: i64) -> Option<i64> {
    held.checked_add(amount)
        .filter(|sum| sum.unsigned_abs() <= MOST_HEAD)
}

impl Heads {
    pub fn zero() -> Heads {
        Heads { amounts: [0; 6] }
    }

    pub fn book(&mut self, amounts: [i64; 6]) -> Result<(), Fault> {
        let mut sums = self.amounts;
        for (sum, amount) in sums.iter_mut().zip(amounts) {
            *sum = add_to_head(*sum, amount).ok_or(Layer::Ledger.refuses(Refusal::Booked))?;
        }
        self.amounts = sums;
        Ok(())
    }
}
