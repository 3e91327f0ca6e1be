//! The twin of the program `speed_cases`: does a task a number of times, and prints what it came to.
#![allow(dead_code)]

mod peer;

use std::error::Error;
use std::hint::black_box;
use std::io::{Read, stdin};

use peer::book::UnitTable;
use peer::ferc::{FercYear, YearFigures};
use peer::ledger::{Ledger, Line};
use peer::month_text::{Member, read};
use peer::refusal::Fault;
use peer::sharing::{Posted, Ratio, Rule};
use peer::tariff::Sheet;
use peer::voucher::cost_voucher;

const MONTH: u32 = 24_277;

const TASKS: [&str; 8] = [
    "bill_posted",
    "bill_ratio",
    "resettle_8_posted",
    "resettle_8_ratio",
    "resettle_11_posted",
    "resettle_11_ratio",
    "read",
    "ferc",
];

/// A sum that tells where each number stands.
fn mixed(sum: i64, number: i64) -> i64 {
    sum.wrapping_mul(31).wrapping_add(number)
}

fn mixed_all(sum: i64, numbers: &[i64]) -> i64 {
    numbers.iter().fold(sum, |sum, number| mixed(sum, *number))
}

fn mixed_lines(sum: i64, lines: &[Line]) -> i64 {
    lines.iter().fold(sum, |sum, line| {
        mixed(mixed(sum, i64::from(line.units)), line.cents)
    })
}

/// A cell by the turn, so that no turn's cells are written for nobody.
fn cell_of(cells: &[i64], turn: u32) -> i64 {
    cells.get(turn as usize % 13).copied().unwrap_or(0)
}

/// The book of an even or of an odd turn.
fn book_of(members: u32, odd: u32) -> Result<UnitTable, Fault> {
    let row = |member| {
        std::array::from_fn(|kind| {
            1 + (member * 7_919 + kind as u32 * 104_729 + odd * 15_485_863) % 1_000_003
        })
    };
    let rows: Vec<[u32; 7]> = (0..members).map(row).collect();
    UnitTable::of_units(MONTH, &rows)
}

fn new_ledger<R: Rule>(rule: R, members: u32, turn: u32) -> Result<Ledger<R>, Fault> {
    let mut sheet = Sheet::even();
    sheet.lay(
        [336, 60, 250, 41, 243, 70],
        [400, 100, 400, 100],
        [600, 987],
    )?;
    let mut ledger = Ledger::open(rule, sheet, members, MONTH)?;
    let first = 2_000_000_000 + i64::from(turn);
    let others = [50_000_000, 40_000_000, 30_000_000, 20_000_000, 10_000_000];
    let [second, third, fourth, fifth, sixth] = others;
    let cost = [first, second, third, fourth, fifth, sixth];
    ledger.book(cost_voucher(first + 150_000_000, cost)?)?;
    Ok(ledger)
}

/// Opens a ledger, books once and bills once, each turn.
fn bills<R: Rule + Copy>(rule: R, members: u32, count: u32) -> Result<i64, Fault> {
    let books = [book_of(members, 0)?, book_of(members, 1)?];
    let mut file = vec![Line::default(); 78 * members as usize];
    let mut statement = vec![0; 13 * members as usize];
    let mut sum = 0;
    for turn in 0..count {
        let mut ledger = new_ledger(rule, black_box(members), turn)?;
        let book = black_box(&books[turn as usize % 2]);
        ledger.bill(book, &mut file, &mut statement)?;
        sum = mixed(sum, cell_of(&statement, turn));
        sum = mixed_all(sum, &ledger.balances());
    }
    Ok(mixed_lines(mixed_all(sum, &statement), &file))
}

/// Bills a month once, and resettles one component of it each turn.
fn resettlements<R: Rule>(rule: R, component: u32, members: u32, count: u32) -> Result<i64, Fault> {
    let books = [book_of(members, 0)?, book_of(members, 1)?];
    let mut file = vec![Line::default(); 78 * members as usize];
    let mut statement = vec![0; 13 * members as usize];
    let mut ledger = new_ledger(rule, members, 0)?;
    ledger.bill(&books[1], &mut file, &mut statement)?;
    let mut cells = vec![0; members as usize];
    let mut sum = 0;
    for turn in 0..count {
        let book = black_box(&books[turn as usize % 2]);
        ledger.resettle(component, book, &mut file, &mut cells)?;
        sum = mixed(sum, cell_of(&cells, turn));
    }
    let sum = mixed_all(sum, &ledger.balances());
    Ok(mixed_lines(mixed_all(sum, &cells), &file))
}

/// The account and all facts of a member.
fn mixed_member(sum: i64, member: &Member) -> i64 {
    let facts = &member.facts;
    [
        member.account,
        facts.transmission,
        facts.wheel_through,
        facts.generation,
        facts.virtual_mwh,
        facts.ftr,
        facts.obligation_bids,
        facts.option_bids,
        facts.segments,
        facts.capacity_obligation,
        facts.capacity_resource,
        facts.invoices,
    ]
    .iter()
    .fold(sum, |sum, number| mixed(sum, i64::from(*number)))
}

/// Reads a text, whose last digit is another each turn.
fn readings(text: &mut [u8], count: u32) -> Result<i64, Fault> {
    let mut sum = 0;
    for turn in 0..count {
        if let [.., digit, _] = text {
            *digit = b'0' + (turn % 10) as u8;
        }
        let month = read(black_box(text))?;
        sum = mixed_member(sum, &month.members[turn as usize % 32]);
        sum = mixed(sum, month.control);
    }
    Ok(sum)
}

/// Makes a FERC year and bills one month of it, each turn.
fn ferc_months(members: u32, count: u32) -> Result<i64, Fault> {
    let books = [book_of(members, 0)?, book_of(members, 1)?];
    let mut cells = vec![0; members as usize];
    let mut sum = 0;
    for turn in 0..count {
        let mut year = FercYear::make(YearFigures {
            estimate: 9_000_000_000 + i64::from(turn),
            paid: 8_800_000_000,
            recovered: 8_900_000_000,
            volume: 10_000_000,
        })?;
        year.bill(black_box(&books[turn as usize % 2]), &mut cells)?;
        sum = mixed(sum, cell_of(&cells, turn));
        sum = mixed(sum, year.billed());
    }
    Ok(mixed_all(sum, &cells))
}

fn do_task(task: &str, members: u32, count: u32, text: &mut [u8]) -> Result<i64, String> {
    match task {
        "bill_posted" => bills(Posted, members, count),
        "bill_ratio" => bills(Ratio, members, count),
        "resettle_8_posted" => resettlements(Posted, 8, members, count),
        "resettle_8_ratio" => resettlements(Ratio, 8, members, count),
        "resettle_11_posted" => resettlements(Posted, 11, members, count),
        "resettle_11_ratio" => resettlements(Ratio, 11, members, count),
        "read" => readings(text, count),
        "ferc" => ferc_months(members, count),
        _ => return Err(format!("no task {task}")),
    }
    .map_err(|fault| format!("{task}: refused {}", fault.refusal as u32))
}

fn main() -> Result<(), Box<dyn Error>> {
    let words: Vec<String> = std::env::args().skip(1).collect();
    let [task, members, count] = words.as_slice() else {
        return Err("give a task, a count of members and a count of turns".into());
    };
    let (members, count) = (members.parse()?, count.parse()?);
    let mut text = Vec::new();
    stdin().lock().read_to_end(&mut text)?;
    let tasks = TASKS.iter().filter(|name| task == "all" || task == *name);
    for name in tasks {
        let sum = do_task(name, members, count, &mut text)?;
        println!("{name}: {sum}");
    }
    Ok(())
}
