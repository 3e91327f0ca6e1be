//! The text of a month's charges, and the line of a refusal.

use std::fmt::{self, Write};

use super::refusal::{Fault, Layer, Refusal};
use super::statement::ComponentCharge;

pub struct MemberCharge {
    pub account: u32,
    pub charges: [i64; 13],
}

/// The whole text: the month, its components, its members.
pub fn charges_text(
    month: u32,
    components: &[ComponentCharge; 13],
    members: &[MemberCharge],
) -> Result<String, fmt::Error> {
    let mut text = String::new();
    writeln!(text, "month={month}")?;
    for (i, charge) in components.iter().enumerate() {
        let (number, pool, units, balance) = (i + 1, charge.pool, charge.units, charge.balance);
        writeln!(text, "component={number},{pool},{units},{balance}")?;
    }
    for member in members {
        write!(text, "user={}", member.account)?;
        for charge in &member.charges {
            write!(text, ",{charge}")?;
        }
        let sum: i64 = member.charges.iter().sum();
        writeln!(text, ",{sum}")?;
    }
    Ok(text)
}

/// The refusal's number and line.
pub fn refusal_text(fault: Fault) -> String {
    let line = match (fault.layer, fault.refusal) {
        (Layer::Text, _) | (Layer::Sheet, Refusal::Weights) => fault.place,
        _ => 0,
    };
    format!("refused={},{line}\n", fault.refusal as u32)
}
