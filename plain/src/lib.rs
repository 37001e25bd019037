//! Block skipping in ordinary Rust, written from document 01 alone: rewriting, pruning and what a
//! predicate means on a row. It is compared with the proved library and timed against it.

pub mod cases;
pub mod differ;
pub mod generate;
pub mod guarantee;
pub mod kleene;
pub mod library;
pub mod limits;
pub mod literal;
pub mod meaning;
pub mod predicate;
pub mod prune;
pub mod random;
pub mod reader;
pub mod recorded;
pub mod refusal;
pub mod rewrite;
pub mod rules;
pub mod statistic;
pub mod subject;
pub mod table;
pub mod text;
pub mod word;
