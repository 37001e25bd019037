//! Seeded calls for differential runs.

pub mod damage;
pub mod grids;
pub mod limits;
pub mod packer;
pub mod predicates;
pub mod rows;
pub mod tables;
pub mod values;
