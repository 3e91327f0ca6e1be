//! The biller in plain Rust: the steps of the proved crates over the same data, checked by nothing but
//! the compiler and its tests for overflow. All its sums are in 64 bits, as the rules' own ranges
//! allow, and it adds up the units of a kind once where the proved crates do so again.

pub mod book;
pub mod cents;
pub mod charges_text;
pub mod ferc;
pub mod ledger;
pub mod month_bill;
pub mod month_text;
pub mod refusal;
pub mod sharing;
pub mod statement;
pub mod tariff;
pub mod units;
pub mod voucher;
