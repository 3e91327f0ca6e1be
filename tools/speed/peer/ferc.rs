//! The FERC annual charge: a year's rate, and the charges of its months.

use super::book::Book;
use super::cents::{at_rate, nearest};
use super::refusal::{Fault, Layer, Refusal};

const MOST_CENTS: u64 = 40_000_000_000;

const MOST_VOLUME: u64 = 20_000_000_000;

const MOST_RATE: u64 = 1_000_000;

#[derive(Clone, Copy)]
pub struct YearFigures {
    pub estimate: i64,
    pub paid: i64,
    pub recovered: i64,
    pub volume: u64,
}

impl YearFigures {
    fn rate(&self) -> Result<i64, Fault> {
        let costs = [self.estimate, self.paid, self.recovered];
        if !costs.iter().all(|cents| cents.unsigned_abs() <= MOST_CENTS)
            || self.volume > MOST_VOLUME
        {
            return Err(Layer::Ferc.refuses(Refusal::Range));
        }
        if self.volume == 0 {
            return Err(Layer::Ferc.refuses(Refusal::Rate));
        }
        let cost = self.estimate + self.paid - self.recovered;
        let rate = nearest(100 * cost, self.volume as i64);
        if rate.unsigned_abs() > MOST_RATE {
            return Err(Layer::Ferc.refuses(Refusal::Rate));
        }
        Ok(rate)
    }
}

pub struct FercYear {
    rate: i64,
    months: u32,
    billed: i64,
}

impl FercYear {
    pub fn make(figures: YearFigures) -> Result<FercYear, Fault> {
        let rate = figures.rate()?;
        Ok(FercYear {
            rate,
            months: 0,
            billed: 0,
        })
    }

    pub fn billed(&self) -> i64 {
        self.billed
    }

    /// Bills a month: one cell for each member of the book.
    pub fn bill<B: Book>(&mut self, book: &B, statement: &mut [i64]) -> Result<(), Fault> {
        if statement.len() != book.members() as usize {
            return Err(Layer::Ferc.refuses(Refusal::Length));
        }
        if self.months >= 12 {
            return Err(Layer::Ferc.refuses(Refusal::Year));
        }
        for (member, cell) in statement.iter_mut().enumerate() {
            let units = book.units(1, member as u32)?;
            *cell = at_rate(self.rate, units);
        }
        self.months += 1;
        self.billed += statement.iter().sum::<i64>();
        Ok(())
    }
}
