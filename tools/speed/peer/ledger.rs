//! The ledger: it books costs, bills months, and resettles months on file.

use super::book::Book;
use super::cents::total;
use super::refusal::{Fault, Layer, Refusal};
use super::sharing::Rule;
use super::statement::{ComponentCharge, charge_month, kind_of, read_book};
use super::tariff::{Heads, Sheet};

const MOST_UNITS: u64 = 2_000_000_000;

const MOST_LINE: u64 = 6_000_000_000;

const MOST_BALANCE: u64 = 4_000_000_000;

#[derive(Clone, Copy)]
struct Account {
    balance: i64,
    pools: [i64; 6],
}

/// The units last read and the cents billed to date.
#[derive(Clone, Copy, Default)]
pub struct Line {
    pub units: u32,
    pub cents: i64,
}

pub struct Ledger<R> {
    rule: R,
    sheet: Sheet,
    heads: Heads,
    members: u32,
    first: u32,
    month: u32,
    accounts: [Account; 13],
}

fn slot_of(month: u32) -> usize {
    (month % 6) as usize
}

fn write_lines(units: impl Iterator<Item = u32>, cents: &[i64], lines: &mut [Line]) {
    for ((line, units), cents) in lines.iter_mut().zip(units).zip(cents) {
        *line = Line {
            units,
            cents: *cents,
        };
    }
}

impl<R: Rule> Ledger<R> {
    pub fn open(rule: R, sheet: Sheet, members: u32, first: u32) -> Result<Ledger<R>, Fault> {
        if !(1..=200).contains(&members) {
            return Err(Layer::Ledger.refuses(Refusal::Count));
        }
        if !(24_277..=35_999).contains(&first) {
            return Err(Layer::Ledger.refuses(Refusal::Month));
        }
        let account = Account {
            balance: 0,
            pools: [0; 6],
        };
        Ok(Ledger {
            rule,
            sheet,
            heads: Heads::zero(),
            members,
            first,
            month: first,
            accounts: [account; 13],
        })
    }

    pub fn balances(&self) -> [i64; 13] {
        self.accounts.map(|account| account.balance)
    }

    pub fn book(&mut self, amounts: [i64; 6]) -> Result<(), Fault> {
        self.heads.book(amounts)
    }

    fn check_memory<B: Book>(
        &self,
        file: &[Line],
        statement: &[i64],
        wanted: usize,
        book: &B,
    ) -> Result<(), Fault> {
        if file.len() != 78 * self.members as usize || statement.len() != wanted {
            return Err(Layer::Ledger.refuses(Refusal::Length));
        }
        if book.members() != self.members {
            return Err(Layer::Ledger.refuses(Refusal::Count));
        }
        Ok(())
    }

    fn row_start(&self, month: u32, component: usize) -> usize {
        (slot_of(month) * 13 + component) * self.members as usize
    }

    /// Bills the open month by a book.
    pub fn bill<B: Book>(
        &mut self,
        book: &B,
        file: &mut [Line],
        statement: &mut [i64],
    ) -> Result<[ComponentCharge; 13], Fault> {
        let members = self.members as usize;
        let costs = self.sheet.costs(&self.heads);
        self.check_memory(file, statement, 13 * members, book)?;
        if book.month() != self.month {
            return Err(Layer::Ledger.refuses(Refusal::Month));
        }
        let pools = std::array::from_fn(|place| costs[place] + self.accounts[place].balance);
        let mut units = [[0; 7]; 200];
        let units = &mut units[..members];
        read_book(book, units)?;
        let charges = charge_month(&self.rule, pools, units, statement)?;
        let start = self.row_start(self.month, 0);
        let lines = file[start..start + statement.len()].chunks_exact_mut(members);
        for (place, (lines, cells)) in lines.zip(statement.chunks_exact(members)).enumerate() {
            let kind = kind_of(place);
            write_lines(units.iter().map(|row| row[kind]), cells, lines);
        }
        let slot = slot_of(self.month);
        for (account, charge) in self.accounts.iter_mut().zip(charges) {
            account.pools[slot] = charge.pool;
            account.balance = charge.balance;
        }
        self.month += 1;
        self.heads = Heads::zero();
        Ok(charges)
    }

    /// Resettles a component of the book's month by the book.
    pub fn resettle<B: Book>(
        &mut self,
        number: u32,
        book: &B,
        file: &mut [Line],
        statement: &mut [i64],
    ) -> Result<(), Fault> {
        if number != 8 && number != 11 {
            return Err(Layer::Ledger.refuses(Refusal::Kind));
        }
        let members = self.members as usize;
        self.check_memory(file, statement, members, book)?;
        let month = book.month();
        if !(self.first <= month && month < self.month && self.month - month <= 6) {
            return Err(Layer::Ledger.refuses(Refusal::Month));
        }
        let component = number as usize - 1;
        let start = self.row_start(month, component);
        let lines = &mut file[start..start + members];
        let left = self.resettle_row(component, book, lines, statement)?;
        self.accounts[component].balance = left;
        Ok(())
    }

    /// Resettles one row of lines, and tells the balance that is left.
    fn resettle_row<B: Book>(
        &self,
        component: usize,
        book: &B,
        lines: &mut [Line],
        cells: &mut [i64],
    ) -> Result<i64, Fault> {
        let members = cells.len();
        let account = &self.accounts[component];
        let mut units = [0; 200];
        let units = &mut units[..members];
        let mut fresh = [0; 200];
        let fresh = &mut fresh[..members];
        let mut changes = [0; 200];
        let changes = &mut changes[..members];
        let kind = kind_of(component) as u32 + 1;
        for (member, units) in units.iter_mut().enumerate() {
            *units = book.units(kind, member as u32)?;
        }
        let whole = total(units);
        if whole > MOST_UNITS {
            return Err(Layer::Ledger.refuses_at(Refusal::Total, kind));
        }
        self.rule
            .share(account.pools[slot_of(book.month())], units, whole, fresh);
        let fault = Layer::Ledger.refuses_at(Refusal::Resettled, component as u32 + 1);
        if !lines
            .iter()
            .all(|line| line.cents.unsigned_abs() <= MOST_LINE)
        {
            return Err(fault);
        }
        for ((change, share), line) in changes.iter_mut().zip(fresh.iter()).zip(lines.iter()) {
            *change = *share - line.cents;
        }
        let left = account.balance - changes.iter().sum::<i64>();
        if left.unsigned_abs() > MOST_BALANCE {
            return Err(fault);
        }
        cells.copy_from_slice(changes);
        write_lines(units.iter().copied(), fresh, lines);
        Ok(left)
    }
}
