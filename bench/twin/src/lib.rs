//! A second implementation of the settlement engine, written from the pages in docs/ and not from the crates.
//!
//! From the bottom up: [`fault`] has the numbered refusals; [`book`] the balances and the numbered lots; [`instruction`]
//! the 32 bytes of an instruction; [`ledger`] two books and the trades, under the rules; [`device`] block devices over an
//! image; [`journal`] the blocks that the engine writes; [`engine`] a ledger over a journal; [`script`] the lines of an
//! examination; [`exam`] the examination itself. [`rng`] has the random numbers of the programs that compare.

pub mod book;
pub mod device;
pub mod engine;
pub mod exam;
pub mod fault;
pub mod instruction;
pub mod journal;
pub mod ledger;
pub mod rng;
pub mod script;
