//! Books of units: asking, and a book that holds a row of seven kinds for each member.

use super::refusal::{Fault, Layer, Refusal};
use super::units::Facts;

pub trait Book {
    fn month(&self) -> u32;
    fn members(&self) -> u32;
    fn units(&self, kind: u32, member: u32) -> Result<u32, Fault>;
}

#[derive(Clone, Copy)]
pub struct UnitTable {
    month: u32,
    count: u32,
    rows: [[u32; 7]; 200],
}

impl UnitTable {
    /// The table of a month, from rows of any form.
    fn of<R>(
        month: u32,
        rows: &[R],
        read: impl Fn(&R) -> Option<[u32; 7]>,
    ) -> Result<UnitTable, Fault> {
        if !(24_277..=35_999).contains(&month) {
            return Err(Layer::Book.refuses(Refusal::Range));
        }
        if !(1..=200).contains(&rows.len()) {
            return Err(Layer::Book.refuses(Refusal::Count));
        }
        let mut fresh = [[0; 7]; 200];
        for (out, row) in fresh.iter_mut().zip(rows) {
            *out = read(row).ok_or(Layer::Book.refuses(Refusal::Range))?;
        }
        Ok(UnitTable {
            month,
            count: rows.len() as u32,
            rows: fresh,
        })
    }

    pub fn of_units(month: u32, rows: &[[u32; 7]]) -> Result<UnitTable, Fault> {
        UnitTable::of(month, rows, |row| {
            row.iter()
                .all(|units| *units <= 2_000_000_000)
                .then_some(*row)
        })
    }

    pub fn of_facts(month: u32, facts: &[Facts]) -> Result<UnitTable, Fault> {
        UnitTable::of(month, facts, Facts::units)
    }
}

impl Book for UnitTable {
    fn month(&self) -> u32 {
        self.month
    }

    fn members(&self) -> u32 {
        self.count
    }

    fn units(&self, kind: u32, member: u32) -> Result<u32, Fault> {
        if !(1..=7).contains(&kind) {
            return Err(Layer::Book.refuses(Refusal::Kind));
        }
        if member >= self.count {
            return Err(Layer::Book.refuses(Refusal::Member));
        }
        Ok(self.rows[member as usize][kind as usize - 1])
    }
}
