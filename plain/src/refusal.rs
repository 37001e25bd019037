//! The refusal numbers of document 01, by name.

pub const SCHEMA: u8 = 1;
pub const ARGUMENT: u8 = 2;
pub const ROOM: u8 = 3;
pub const FORM: u8 = 4;
pub const LIMIT: u8 = 5;
pub const TYPE: u8 = 6;
pub const CONTAINERS: u8 = 7;
pub const TABLE: u8 = 8;
pub const GRID: u8 = 9;
pub const ANSWERS: u8 = 10;

/// `Ok` if `sound`, else the refusal.
pub fn refuse_unless(sound: bool, refusal: u8) -> Result<(), u8> {
    if sound { Ok(()) } else { Err(refusal) }
}
