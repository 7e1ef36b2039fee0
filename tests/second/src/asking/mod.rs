//! A driver and the second program asked the same things, and their answers compared.

pub mod asks;
pub mod call;
pub mod driver;
pub mod report;
pub mod session;
pub mod tally;
