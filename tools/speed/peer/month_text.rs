//! The reader of a month's text.

use super::cents::total;
use super::refusal::{Fault, Layer, Refusal};
use super::units::Facts;

const LONGEST: usize = 16_384;

const FIRST: u32 = 9;

#[derive(Clone, Copy, PartialEq, Eq)]
pub enum RuleName {
    Posted,
    Ratio,
}

#[derive(Clone, Copy, Default)]
pub struct Member {
    pub account: u32,
    pub facts: Facts,
}

#[derive(Clone, Copy)]
pub struct SheetLines {
    pub division: [u32; 6],
    pub management: [u32; 4],
    pub split: [u32; 2],
}

#[derive(Clone, Copy)]
pub struct Month {
    pub month: u32,
    pub rule: RuleName,
    pub sheet: SheetLines,
    pub cost: [i64; 6],
    pub control: i64,
    pub count: usize,
    pub members: [Member; 32],
}

impl From<[u32; 12]> for Member {
    fn from(row: [u32; 12]) -> Member {
        Member {
            account: row[0],
            facts: Facts {
                transmission: row[1],
                wheel_through: row[2],
                generation: row[3],
                virtual_mwh: row[4],
                ftr: row[5],
                obligation_bids: row[6],
                option_bids: row[7],
                segments: row[8],
                capacity_obligation: row[9],
                capacity_resource: row[10],
                invoices: row[11],
            },
        }
    }
}

fn off_layout(line_number: u32) -> Fault {
    Layer::Text.refuses_at(Refusal::Layout, line_number)
}

fn out_of_range(line_number: u32) -> Fault {
    Layer::Text.refuses_at(Refusal::Range, line_number)
}

/// The number at the front, and the text after it.
fn number(s: &[u8]) -> Option<(u64, &[u8])> {
    let [digit @ b'0'..=b'9', rest @ ..] = s else {
        return None;
    };
    let mut n = u64::from(digit - b'0');
    let mut rest = rest;
    while let [digit @ b'0'..=b'9', after @ ..] = rest {
        if n == 0 || n >= 10_000_000_000 {
            return None;
        }
        n = n * 10 + u64::from(digit - b'0');
        rest = after;
    }
    Some((n, rest))
}

fn integer(signs: bool, s: &[u8]) -> Option<(i64, &[u8])> {
    match s {
        [b'-', rest @ ..] if signs => {
            let (n, rest) = number(rest)?;
            (n != 0).then_some((-(n as i64), rest))
        }
        _ => {
            let (n, rest) = number(s)?;
            Some((n as i64, rest))
        }
    }
}

/// A whole line of `K` numbers behind its key.
fn line<'a, const K: usize>(key: &[u8], signs: bool, s: &'a [u8]) -> Option<([i64; K], &'a [u8])> {
    let mut rest = s.strip_prefix(key)?.strip_prefix(b"=")?;
    let mut numbers = [0; K];
    for (i, number) in numbers.iter_mut().enumerate() {
        let (read, after) = integer(signs, rest)?;
        let stop = if i + 1 == K { b'\n' } else { b',' };
        rest = after.strip_prefix(&[stop])?;
        *number = read;
    }
    Some((numbers, rest))
}

/// A line of `K` numbers from `low` to `high`, and the text after it.
fn row<'a, const K: usize>(
    key: &[u8],
    low: u32,
    high: u32,
    line_number: u32,
    s: &'a [u8],
) -> Result<([u32; K], &'a [u8]), Fault> {
    let (read, rest) = line::<K>(key, false, s).ok_or(off_layout(line_number))?;
    let mut numbers = [0; K];
    for (number, x) in numbers.iter_mut().zip(read) {
        *number = u32::try_from(x)
            .ok()
            .filter(|n| (low..=high).contains(n))
            .ok_or(out_of_range(line_number))?;
    }
    Ok((numbers, rest))
}

/// A line of `K` signed amounts within ±`most`, and the text after it.
fn amounts<'a, const K: usize>(
    key: &[u8],
    most: u64,
    line_number: u32,
    s: &'a [u8],
) -> Result<([i64; K], &'a [u8]), Fault> {
    let (amounts, rest) = line::<K>(key, true, s).ok_or(off_layout(line_number))?;
    if !amounts.iter().all(|x| x.unsigned_abs() <= most) {
        return Err(out_of_range(line_number));
    }
    Ok((amounts, rest))
}

/// A line of `K` thousandths that add up to 1,000, and the text after it.
fn weights<'a, const K: usize>(
    key: &[u8],
    line_number: u32,
    s: &'a [u8],
) -> Result<([u32; K], &'a [u8]), Fault> {
    let (weights, rest) = row::<K>(key, 0, 1000, line_number, s)?;
    if total(&weights) != 1000 {
        return Err(Layer::Sheet.refuses_at(Refusal::Weights, line_number));
    }
    Ok((weights, rest))
}

fn rule_line(s: &[u8]) -> Result<(RuleName, &[u8]), Fault> {
    if let Some(rest) = s.strip_prefix(b"rule=posted\n") {
        return Ok((RuleName::Posted, rest));
    }
    let rest = s.strip_prefix(b"rule=ratio\n").ok_or(off_layout(2))?;
    Ok((RuleName::Ratio, rest))
}

fn member_lines<'a>(places: &mut [Member], s: &'a [u8]) -> Result<&'a [u8], Fault> {
    let mut rest = s;
    let mut last = 0;
    for (place, line_number) in places.iter_mut().zip(FIRST..) {
        let (numbers, after) = row(b"user", 0, 100_000_000, line_number, rest)?;
        let member = Member::from(numbers);
        if !(last < member.account && member.account <= 999_999 && member.facts.lawful()) {
            return Err(out_of_range(line_number));
        }
        *place = member;
        last = member.account;
        rest = after;
    }
    Ok(rest)
}

/// What a month's text says, or the first line that is refused.
pub fn read(text: &[u8]) -> Result<Month, Fault> {
    if text.len() > LONGEST {
        return Err(off_layout(0));
    }
    let ([month], s) = row(b"month", 24_277, 35_999, 1, text)?;
    let (rule, s) = rule_line(s)?;
    let (division, s) = weights(b"division", 3, s)?;
    let (management, s) = weights(b"management", 4, s)?;
    let (split, s) = row(b"split", 0, 1000, 5, s)?;
    let (cost, s) = amounts(b"cost", 4_000_000_000, 6, s)?;
    let ([control], s) = amounts(b"control", 24_000_000_000, 7, s)?;
    let ([users], s) = row(b"users", 1, 32, 8, s)?;
    let count = users as usize;
    let mut members = [Member::default(); 32];
    let rest = member_lines(&mut members[..count], s)?;
    if !rest.is_empty() {
        return Err(off_layout(FIRST + users));
    }
    Ok(Month {
        month,
        rule,
        sheet: SheetLines {
            division,
            management,
            split,
        },
        cost,
        control,
        count,
        members,
    })
}
