//! The two C functions of libspill.a. All unsafe code of the package stands in this file.
//!
//! A slice is passed as a pointer and a length. Each call below passes Rust slices, so every pointer is good for
//! its length, and no output overlaps an input or another output: a `&mut` slice is the only one of its bytes.

use crate::raw::{PruneInput, RewriteInput, RewriteOutput};

unsafe extern "C" {
    fn spill_rewrite(
        schema: *const u8,
        schema_len: usize,
        predicate: *const u8,
        predicate_len: usize,
        pool: *const u8,
        pool_len: usize,
        list_limit: u64,
        table: *mut u8,
        table_len: usize,
        table_pool: *mut u8,
        table_pool_len: usize,
        statistics: *mut u8,
        statistics_len: usize,
        guarantees: *mut u8,
        guarantees_len: usize,
    ) -> u64;

    fn spill_prune(
        schema: *const u8,
        schema_len: usize,
        table: *const u8,
        table_len: usize,
        table_pool: *const u8,
        table_pool_len: usize,
        statistics: *const u8,
        statistics_len: usize,
        guarantees: *const u8,
        guarantees_len: usize,
        containers: u64,
        grid: *const u8,
        grid_len: usize,
        cell_pool: *const u8,
        cell_pool_len: usize,
        answers: *const u8,
        answers_len: usize,
        flags: *mut u8,
        flags_len: usize,
    ) -> u64;
}

/// Calls `spill_rewrite`; returns its answer word.
pub(crate) fn rewrite(input: RewriteInput, output: RewriteOutput) -> u64 {
    // SAFETY: each pointer and length are those of one slice; outputs are exclusive borrows.
    unsafe {
        spill_rewrite(
            input.schema.as_ptr(),
            input.schema.len(),
            input.predicate.as_ptr(),
            input.predicate.len(),
            input.pool.as_ptr(),
            input.pool.len(),
            input.list_limit,
            output.table.as_mut_ptr(),
            output.table.len(),
            output.pool.as_mut_ptr(),
            output.pool.len(),
            output.statistics.as_mut_ptr(),
            output.statistics.len(),
            output.guarantees.as_mut_ptr(),
            output.guarantees.len(),
        )
    }
}

/// Calls `spill_prune`; returns 0 or the refusal.
pub(crate) fn prune(input: PruneInput, flags: &mut [u8]) -> u64 {
    // SAFETY: each pointer and length are those of one slice; the flags are an exclusive borrow.
    unsafe {
        spill_prune(
            input.schema.as_ptr(),
            input.schema.len(),
            input.table.as_ptr(),
            input.table.len(),
            input.table_pool.as_ptr(),
            input.table_pool.len(),
            input.statistics.as_ptr(),
            input.statistics.len(),
            input.guarantees.as_ptr(),
            input.guarantees.len(),
            input.containers,
            input.grid.as_ptr(),
            input.grid.len(),
            input.cell_pool.as_ptr(),
            input.cell_pool.len(),
            input.answers.as_ptr(),
            input.answers.len(),
            flags.as_mut_ptr(),
            flags.len(),
        )
    }
}

// A C caller may pass a null pointer with length 0 for an empty slice: tried here, where the pointers are in reach.
#[cfg(test)]
mod tests {
    use super::*;
    use crate::raw;
    use std::ptr::{null, null_mut};

    #[test]
    fn null_pointers_of_length_zero_are_empty_slices_to_rewriting() {
        // No columns, no predicate: refusal 3 for the outputs, since they come before the words.
        let answer = unsafe {
            spill_rewrite(
                null(),
                0,
                null(),
                0,
                null(),
                0,
                20,
                null_mut(),
                0,
                null_mut(),
                0,
                null_mut(),
                0,
                null_mut(),
                0,
            )
        };
        assert_eq!(answer, 3 << 56);
    }

    #[test]
    fn an_accepted_call_of_rewriting_takes_null_inputs() {
        // Constant true over no columns and no pool: one table word is written.
        let predicate = [0x01u8, 0, 0, 0, 0, 0, 0, 0];
        let rooms = [raw::TABLE_ROOM, raw::TABLE_POOL_ROOM, raw::STATISTICS_ROOM, raw::GUARANTEES_ROOM];
        let [mut t, mut p, mut s, mut g] = rooms.map(|room| vec![0xEEu8; room]);
        let answer = unsafe {
            spill_rewrite(
                null(),
                0,
                predicate.as_ptr(),
                8,
                null(),
                0,
                20,
                t.as_mut_ptr(),
                t.len(),
                p.as_mut_ptr(),
                p.len(),
                s.as_mut_ptr(),
                s.len(),
                g.as_mut_ptr(),
                g.len(),
            )
        };
        assert_eq!(answer, 1 << 40);
        assert_eq!(t[..9], [0x01, 0, 0, 0, 0, 0, 0, 0, 0xEE]);
    }

    #[test]
    fn null_pointers_of_length_zero_are_empty_slices_to_pruning() {
        // One word, constant true, over nothing: with no containers it is accepted and writes nothing.
        let table = [0x01u8, 0, 0, 0, 0, 0, 0, 0];
        let result = unsafe {
            spill_prune(
                null(),
                0,
                table.as_ptr(),
                8,
                null(),
                0,
                null(),
                0,
                null(),
                0,
                0,
                null(),
                0,
                null(),
                0,
                null(),
                0,
                null_mut(),
                0,
            )
        };
        assert_eq!(result, 0);
    }

    #[test]
    fn a_null_table_is_an_empty_table() {
        let result = unsafe {
            spill_prune(
                null(),
                0,
                null(),
                0,
                null(),
                0,
                null(),
                0,
                null(),
                0,
                0,
                null(),
                0,
                null(),
                0,
                null(),
                0,
                null_mut(),
                0,
            )
        };
        assert_eq!(result, 8);
    }
}
