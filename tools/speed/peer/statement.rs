//! A month's statement: every component's pool shared over the members by their units.

use super::book::Book;
use super::refusal::{Fault, Layer, Refusal};
use super::sharing::Rule;

const MOST_UNITS: u64 = 2_000_000_000;

const MOST_CENTS: u64 = 4_000_000_000;

#[derive(Clone, Copy, Default)]
pub struct ComponentCharge {
    pub pool: i64,
    pub units: u32,
    pub balance: i64,
}

/// The place of the kind that a component is charged by.
pub fn kind_of(component: usize) -> usize {
    if component < 7 {
        component
    } else {
        component - 7
    }
}

/// The units of a kind, of all members together.
fn total(rows: &[[u32; 7]], kind: usize) -> u64 {
    rows.iter().map(|row| u64::from(row[kind])).sum()
}

/// The same member by member.
fn column(rows: &[[u32; 7]], kind: usize) -> [u32; 200] {
    let mut column = [0; 200];
    for (units, row) in column.iter_mut().zip(rows) {
        *units = row[kind];
    }
    column
}

/// All tests of a month, and the totals of its kinds.
fn test(pools: &[i64; 13], rows: &[[u32; 7]], cells: usize) -> Result<[u64; 7], Fault> {
    if rows.len() * 13 != cells {
        return Err(Layer::Ledger.refuses(Refusal::Length));
    }
    if rows.is_empty() || rows.len() > 200 {
        return Err(Layer::Ledger.refuses(Refusal::Count));
    }
    let totals: [u64; 7] = std::array::from_fn(|kind| total(rows, kind));
    for (kind, total) in totals.iter().enumerate() {
        if *total > MOST_UNITS {
            return Err(Layer::Ledger.refuses_at(Refusal::Total, kind as u32 + 1));
        }
    }
    for (place, pool) in pools.iter().enumerate() {
        if pool.unsigned_abs() > MOST_CENTS {
            return Err(Layer::Ledger.refuses_at(Refusal::Pool, place as u32 + 1));
        }
    }
    Ok(totals)
}

fn charge_component<R: Rule>(
    rule: &R,
    pool: i64,
    rows: &[[u32; 7]],
    kind: usize,
    total: u64,
    cells: &mut [i64],
) -> ComponentCharge {
    let column = column(rows, kind);
    rule.share(pool, &column[..rows.len()], total, cells);
    let balance = pool - cells.iter().sum::<i64>();
    ComponentCharge {
        pool,
        units: total as u32,
        balance,
    }
}

/// Charges a month into a statement of thirteen cells a member, component by component.
pub fn charge_month<R: Rule>(
    rule: &R,
    pools: [i64; 13],
    rows: &[[u32; 7]],
    statement: &mut [i64],
) -> Result<[ComponentCharge; 13], Fault> {
    let totals = test(&pools, rows, statement.len())?;
    let mut charges = [ComponentCharge::default(); 13];
    let cells = statement.chunks_exact_mut(rows.len());
    for (place, (charge, cells)) in charges.iter_mut().zip(cells).enumerate() {
        let kind = kind_of(place);
        *charge = charge_component(rule, pools[place], rows, kind, totals[kind], cells);
    }
    Ok(charges)
}

/// What one member pays for each component of a statement.
pub fn member_charges(statement: &[i64], member: usize) -> [i64; 13] {
    let members = statement.len() / 13;
    std::array::from_fn(|place| statement[place * members + member])
}

/// Reads all units of a book into memory that has a row for each member.
pub fn read_book<B: Book>(book: &B, out: &mut [[u32; 7]]) -> Result<(), Fault> {
    if out.len() != book.members() as usize {
        return Err(Layer::Ledger.refuses(Refusal::Length));
    }
    for (member, row) in out.iter_mut().enumerate() {
        for (kind, units) in row.iter_mut().enumerate() {
            *units = book.units(kind as u32 + 1, member as u32)?;
        }
    }
    Ok(())
}
