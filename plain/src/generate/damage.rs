//! Damaged copies of calls: one to three changes, so that the order of the refusals matters too.

use crate::cases::{PruneCase, RewriteCase};
use crate::random::Random;

/// Changes something in the bytes.
fn damage_bytes(random: &mut Random, bytes: &mut Vec<u8>) {
    if bytes.is_empty() {
        return bytes.extend_from_slice(&[0; 8][random.below(8)..]);
    }
    let at = random.below(bytes.len());
    match random.below(8) {
        0..=2 => bytes[at] ^= 1 << random.below(8),
        3 => bytes[at] = random.word() as u8,
        4 => bytes.truncate(at),
        5 => bytes.truncate(at / 8 * 8),
        6 => bytes.extend_from_within(at / 8 * 8..(at / 8 * 8 + 8).min(bytes.len())),
        _ => {
            let other = random.below(bytes.len());
            bytes.swap(at, other);
        }
    }
}

/// Changes one field of one word: the places where fields begin are the likely ones.
fn damage_word(random: &mut Random, bytes: &mut [u8]) {
    let words = bytes.len() / 8;
    if words == 0 {
        return;
    }
    let word = &mut bytes[random.below(words) * 8..][..8];
    match random.below(8) {
        0 => word[0] = (word[0] & 0x0F) | (random.below(16) << 4) as u8,
        1 => word[0] = (word[0] & 0xF0) | random.below(16) as u8,
        2 => word[1] = random.below(70) as u8,
        3 => word[2] = random.below(4) as u8,
        4 => word[3] ^= 0x80,
        5 => word[4] = random.below(4) as u8,
        6 => word[random.between(5, 6)] = random.below(3) as u8,
        _ => word[7] = random.word() as u8,
    }
}

pub fn rewriting(random: &mut Random, case: &mut RewriteCase) {
    for _ in 0..random.pick(&[1, 1, 1, 2, 3]) {
        match random.below(16) {
            0..=3 => damage_bytes(random, &mut case.predicate),
            4..=9 => damage_word(random, &mut case.predicate),
            10 => damage_bytes(random, &mut case.pool),
            11 => case.pool.truncate(case.pool.len().saturating_sub(1)),
            12 => damage_bytes(random, &mut case.schema),
            13 => case.list_limit = random.pick(&[0, 1, 255, 256, 257, u64::MAX, 1 << 32]),
            14 => case.schema.truncate(case.schema.len().saturating_sub(1)),
            _ => change_room(random, case),
        }
    }
}

/// One room less, more, or none.
fn change_room(random: &mut Random, case: &mut RewriteCase) {
    let rooms = &mut case.rooms;
    let room = match random.below(4) {
        0 => &mut rooms.table,
        1 => &mut rooms.pool,
        2 => &mut rooms.statistics,
        _ => &mut rooms.guarantees,
    };
    *room = random.pick(&[room.saturating_sub(1), *room + 1, *room + 8, 0]);
}

pub fn pruning(random: &mut Random, case: &mut PruneCase) {
    for _ in 0..random.pick(&[1, 1, 1, 2, 3]) {
        match random.below(20) {
            0 => damage_bytes(random, &mut case.schema),
            1 => damage_bytes(random, &mut case.table),
            2..=5 => damage_word(random, &mut case.table),
            6 => damage_bytes(random, &mut case.table_pool),
            7 => damage_bytes(random, &mut case.statistics),
            8 => damage_word(random, &mut case.statistics),
            9 => damage_bytes(random, &mut case.guarantees),
            10 => damage_word(random, &mut case.guarantees),
            11 => damage_bytes(random, &mut case.grid),
            12..=14 => damage_word(random, &mut case.grid),
            15 => damage_bytes(random, &mut case.cell_pool),
            16 => damage_bytes(random, &mut case.answers),
            17 => case.cell_pool.truncate(case.cell_pool.len().saturating_sub(1)),
            18 => case.flag_room = random.below(case.flag_room + 3),
            _ => case.containers = random.pick(&[0, 1, case.containers.saturating_add(1), 4097, u64::MAX]),
        }
    }
}
