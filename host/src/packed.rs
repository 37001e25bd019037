//! Rewriting and pruning over packed bytes, with outputs of the right size and refusals as an error.

use crate::raw::{self, PruneInput, RewriteInput, RewriteOutput};
use crate::refusal::Refusal;

/// The answer word of rewriting, taken apart.
#[derive(Clone, Copy, Debug, PartialEq, Eq)]
pub struct Counts {
    /// Table words, literals included.
    pub table_words: usize,
    /// Bytes of the table's literal pool.
    pub pool_bytes: usize,
    /// Entries of the statistics list.
    pub statistics: usize,
    /// Guarantees.
    pub guarantees: usize,
}

impl Counts {
    /// Reads an answer word: the refusal, or the counts.
    ///
    /// ```
    /// use filughjosa::packed::Counts;
    /// let counts = Counts::read(0x0000_0400_0803_0000).unwrap();
    /// assert_eq!((counts.table_words, counts.pool_bytes, counts.statistics, counts.guarantees), (4, 8, 3, 0));
    /// ```
    pub fn read(answer: u64) -> Result<Counts, Refusal> {
        let field = |shift: u32, bits: u32| (answer >> shift & ((1 << bits) - 1)) as usize;
        refused((answer >> 56) & 0xFF)?;
        Ok(Counts {
            table_words: field(40, 16),
            pool_bytes: field(24, 16),
            statistics: field(16, 8),
            guarantees: field(8, 8),
        })
    }
}

/// What rewriting wrote, each cut to what was counted.
#[derive(Clone, Debug, PartialEq, Eq)]
pub struct Rewritten {
    /// The rewritten table.
    pub table: Vec<u8>,
    /// Its literal pool.
    pub pool: Vec<u8>,
    /// The statistics that the table reads.
    pub statistics: Vec<u8>,
    /// The guarantees of the predicate.
    pub guarantees: Vec<u8>,
}

/// The blocks' summaries, packed for one pruning call.
#[derive(Clone, Copy, Debug)]
pub struct Grid<'a> {
    /// How many blocks.
    pub containers: u64,
    /// A cell word for each block and statistic.
    pub cells: &'a [u8],
    /// The bytes that the cells point into.
    pub cell_pool: &'a [u8],
    /// An answer for each block and guarantee, or none.
    pub answers: &'a [u8],
}

/// Rewrites a packed predicate.
pub fn rewrite(schema: &[u8], predicate: &[u8], pool: &[u8], list_limit: u64) -> Result<Rewritten, Refusal> {
    let mut out = Rewritten {
        table: vec![0; raw::TABLE_ROOM],
        pool: vec![0; raw::TABLE_POOL_ROOM],
        statistics: vec![0; raw::STATISTICS_ROOM],
        guarantees: vec![0; raw::GUARANTEES_ROOM],
    };
    let answer = raw::rewrite_into(
        RewriteInput { schema, predicate, pool, list_limit },
        RewriteOutput {
            table: &mut out.table,
            pool: &mut out.pool,
            statistics: &mut out.statistics,
            guarantees: &mut out.guarantees,
        },
    );
    let counts = Counts::read(answer)?;
    out.table.truncate(counts.table_words * 8);
    out.pool.truncate(counts.pool_bytes);
    out.statistics.truncate(counts.statistics * 8);
    out.guarantees.truncate(counts.guarantees * 8);
    Ok(out)
}

/// Prunes: a value a block, true where it must be read.
pub fn prune(schema: &[u8], rewritten: &Rewritten, grid: Grid) -> Result<Vec<bool>, Refusal> {
    // More blocks than a call takes are refused whatever the flags' length: no need to allocate for them.
    let room = grid.containers.min(raw::MAX_CONTAINERS as u64) as usize;
    let mut flags = vec![0; room];
    let result = raw::prune_into(
        PruneInput {
            schema,
            table: &rewritten.table,
            table_pool: &rewritten.pool,
            statistics: &rewritten.statistics,
            guarantees: &rewritten.guarantees,
            containers: grid.containers,
            grid: grid.cells,
            cell_pool: grid.cell_pool,
            answers: grid.answers,
        },
        &mut flags,
    );
    refused(result)?;
    Ok(flags.into_iter().map(|flag| flag != 0).collect())
}

/// An error where a number is not 0. The library gives only document 01's numbers; another means a wrong archive.
fn refused(number: u64) -> Result<(), Refusal> {
    match Refusal::from_number(number) {
        Some(refusal) => Err(refusal),
        None if number == 0 => Ok(()),
        None => panic!("libspill.a answered {number}, which is no refusal: it is another library's"),
    }
}
