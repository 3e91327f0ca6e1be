//! A month from its text to its printed charges, billed by a new ledger.

use std::fmt;

use super::book::{Book, UnitTable};
use super::charges_text::{MemberCharge, charges_text, refusal_text};
use super::ledger::{Ledger, Line};
use super::month_text::{Month, RuleName, read};
use super::refusal::Fault;
use super::sharing::{Posted, Ratio, Rule};
use super::statement::{ComponentCharge, member_charges};
use super::tariff::Sheet;
use super::voucher::cost_voucher;

struct Bill {
    components: [ComponentCharge; 13],
    members: [MemberCharge; 32],
}

fn bill_by<R: Rule>(rule: R, month: &Month) -> Result<Bill, Fault> {
    let mut sheet = Sheet::even();
    let lines = month.sheet;
    sheet.lay(lines.division, lines.management, lines.split)?;
    let facts = month.members.map(|member| member.facts);
    let book = UnitTable::of_facts(month.month, &facts[..month.count])?;
    let mut ledger = Ledger::open(rule, sheet, book.members(), month.month)?;
    ledger.book(cost_voucher(month.control, month.cost)?)?;
    let mut file = [Line::default(); 2496];
    let mut statement = [0; 416];
    let statement = &mut statement[..13 * month.count];
    let components = ledger.bill(&book, &mut file[..78 * month.count], statement)?;
    let members = std::array::from_fn(|i| MemberCharge {
        account: month.members[i].account,
        charges: if i < month.count {
            member_charges(statement, i)
        } else {
            [0; 13]
        },
    });
    Ok(Bill {
        components,
        members,
    })
}

fn billed(text: &[u8]) -> Result<(Month, Bill), Fault> {
    let month = read(text)?;
    let bill = match month.rule {
        RuleName::Posted => bill_by(Posted, &month)?,
        RuleName::Ratio => bill_by(Ratio, &month)?,
    };
    Ok((month, bill))
}

/// The charges of a month's text, or the line of its refusal.
pub fn answer(text: &[u8]) -> Result<String, fmt::Error> {
    match billed(text) {
        Ok((month, bill)) => {
            charges_text(month.month, &bill.components, &bill.members[..month.count])
        }
        Err(fault) => Ok(refusal_text(fault)),
    }
}
