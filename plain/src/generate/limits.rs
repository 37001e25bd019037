//! Every limit of document 01, met exactly or passed by one.

mod pruning;
mod rewriting;

pub use pruning::pruning;
pub use rewriting::rewriting;
