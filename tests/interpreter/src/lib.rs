//! An interpreter of the contract language CL, made apart from the engine.
//!
//! It is written from document 01 and from chapter 2 of document 000 alone: plans and payoffs are
//! typed trees, payments are traces (functions of months), and all arithmetic is on `i128`, wide
//! enough that no rule has to fear its own overflow. Clarity counts here, not speed.

pub mod accept;
pub mod amounts;
pub mod calls;
pub mod language;
pub mod payoffs;
pub mod print;
pub mod read;
pub mod refusal;
pub mod sheet;
pub mod step;
pub mod table;
pub mod traces;

pub use language::{Amount, Delay, Month, Offset, Payoff, Plan, Test};
pub use refusal::Refusal;
pub use table::Table;

/// "-9,000,000,000,000 to 9,000,000,000,000": the farthest from zero that an amount may be.
pub const AMOUNT_LIMIT: i64 = 9_000_000_000_000;

/// "a value beyond 9×10^18 either side of zero" is refused.
pub const VALUE_LIMIT: i128 = 9_000_000_000_000_000_000;

/// "L,d,plan the plan, d months later. d is 0 to 600"; also the greatest f and the greatest setting.
pub const MONTH_LIMIT: i64 = 600;

/// "A table covers months -h to f, h at most 60".
pub const HISTORY_LIMIT: i64 = 60;

/// Settings `P0` to `P7`, labels 0 to 7.
pub const EIGHT: usize = 8;
