//! An ordinary loop for one grid alone: IN over an integer column, every statistic present,
//! statistics listed as least, greatest, blanks, rows. Nothing is checked.

use plain::cases::PruneCase;

fn number(pool: &[u8], word: &[u8]) -> i64 {
    let offset = u32::from_be_bytes([0, word[5], word[6], word[7]]) as usize;
    i64::from_be_bytes(pool[offset..offset + 8].try_into().expect("eight bytes"))
}

/// The flags of the grid; `wanted` are the list's literals.
pub fn flags(case: &PruneCase, wanted: &[i64], flags: &mut [u8]) {
    for (cells, flag) in case.grid.chunks_exact(32).zip(flags) {
        let [least, greatest, blanks, rows] = [0, 8, 16, 24].map(|at| number(&case.cell_pool, &cells[at..at + 8]));
        let some = blanks != rows;
        *flag = (some && wanted.iter().any(|value| least <= *value && *value <= greatest)) as u8;
    }
}

/// The literals of such a list, out of the table's pool, where each stands twice.
pub fn wanted(case: &PruneCase) -> Vec<i64> {
    let each = case.table_pool.chunks_exact(16);
    each.map(|twice| i64::from_be_bytes(twice[..8].try_into().expect("eight bytes"))).collect()
}
