//! A voucher: amounts on the six heads, checked against a control total.

use super::refusal::{Fault, Layer, Refusal};
use super::tariff::add_to_head;

const MOST_CONTROL: u64 = 24_000_000_000;

pub struct Voucher {
    control: i64,
    amounts: [i64; 6],
}

impl Voucher {
    pub fn open(control: i64) -> Result<Voucher, Fault> {
        if control.unsigned_abs() > MOST_CONTROL {
            return Err(Layer::Voucher.refuses(Refusal::Range));
        }
        Ok(Voucher {
            control,
            amounts: [0; 6],
        })
    }

    pub fn line(&mut self, head: u32, amount: i64) -> Result<(), Fault> {
        let fault = Layer::Voucher.refuses(Refusal::Head);
        if !(1..=6).contains(&head) {
            return Err(fault);
        }
        let held = &mut self.amounts[head as usize - 1];
        *held = add_to_head(*held, amount).ok_or(fault)?;
        Ok(())
    }

    /// Hands back the amounts, which must add up to the control total.
    pub fn spend(self) -> Result<[i64; 6], Fault> {
        if self.amounts.iter().sum::<i64>() != self.control {
            return Err(Layer::Voucher.refuses(Refusal::Control));
        }
        Ok(self.amounts)
    }
}

/// The amounts of a month's costs: one line a head, balanced.
pub fn cost_voucher(control: i64, cost: [i64; 6]) -> Result<[i64; 6], Fault> {
    let mut voucher = Voucher::open(control)?;
    for (i, amount) in cost.iter().enumerate() {
        voucher.line(i as u32 + 1, *amount)?;
    }
    voucher.spend()
}
