//! The recorded lists of vectors/: reading a line, and replaying it through the C functions.

use crate::packed::{self, Grid};
use crate::raw::{self, PruneInput, RewriteInput, RewriteOutput};

/// A recorded call of rewriting.
#[derive(Clone, Debug)]
pub struct RewriteLine {
    /// The packed schema.
    pub schema: Vec<u8>,
    /// The packed predicate.
    pub predicate: Vec<u8>,
    /// The literal pool.
    pub pool: Vec<u8>,
    /// The list limit.
    pub list_limit: u64,
    /// The lengths of the lent outputs: table, pool, statistics, guarantees.
    pub rooms: [usize; 4],
    /// The answer word.
    pub answer: u64,
    /// What the outputs begin with; all empty where the call is refused.
    pub written: [Vec<u8>; 4],
}

/// A recorded call of pruning.
#[derive(Clone, Debug)]
pub struct PruneLine {
    /// The packed schema.
    pub schema: Vec<u8>,
    /// The rewritten table.
    pub table: Vec<u8>,
    /// The table's literal pool.
    pub table_pool: Vec<u8>,
    /// The statistics list.
    pub statistics: Vec<u8>,
    /// The guarantees.
    pub guarantees: Vec<u8>,
    /// The number of containers.
    pub containers: u64,
    /// The cell words.
    pub grid: Vec<u8>,
    /// The cell pool.
    pub cell_pool: Vec<u8>,
    /// The answer bytes.
    pub answers: Vec<u8>,
    /// The length of the lent flags.
    pub room: usize,
    /// 0 or the refusal.
    pub result: u64,
    /// What the flags begin with; empty where the call is refused.
    pub flags: Vec<u8>,
}

/// A recorded predicate with summaries and flags.
#[derive(Clone, Debug)]
pub struct FlagsLine {
    /// The packed schema.
    pub schema: Vec<u8>,
    /// The packed predicate.
    pub predicate: Vec<u8>,
    /// The literal pool.
    pub pool: Vec<u8>,
    /// The list limit.
    pub list_limit: u64,
    /// The number of containers.
    pub containers: u64,
    /// Four cell words for each container and column.
    pub summaries: Vec<u8>,
    /// The cell pool.
    pub cell_pool: Vec<u8>,
    /// A byte a container.
    pub flags: Vec<u8>,
}

/// One line of a recorded list.
#[derive(Clone, Debug)]
pub enum Line {
    /// A call of rewriting.
    Rewrite(RewriteLine),
    /// A call of pruning.
    Prune(PruneLine),
    /// Rewriting, then pruning.
    Flags(FlagsLine),
}

/// The fields of a line, taken one by one.
struct Fields<'a>(std::str::Split<'a, char>);

impl Fields<'_> {
    fn text(&mut self, what: &str) -> Result<&str, String> {
        self.0.next().ok_or_else(|| format!("the line ends before its {what}"))
    }

    fn bytes(&mut self, what: &str) -> Result<Vec<u8>, String> {
        let text = self.text(what)?;
        read_bytes(text).ok_or_else(|| format!("the {what} is not bytes in hex"))
    }

    fn number(&mut self, what: &str) -> Result<u64, String> {
        self.text(what)?.parse().map_err(|_| format!("the {what} is not a number"))
    }

    fn room(&mut self, what: &str) -> Result<usize, String> {
        usize::try_from(self.number(what)?).map_err(|_| format!("the {what} is too great"))
    }
}

/// Bytes in hex: `-` for none, `XX*N.` for N times the byte XX.
pub fn read_bytes(text: &str) -> Option<Vec<u8>> {
    let mut rest = if text == "-" { "" } else { text };
    let mut bytes = Vec::new();
    while !rest.is_empty() {
        let byte = u8::from_str_radix(rest.get(..2)?, 16).ok()?;
        rest = &rest[2..];
        let Some(run) = rest.strip_prefix('*') else {
            bytes.push(byte);
            continue;
        };
        let (count, behind) = run.split_once('.')?;
        bytes.resize(bytes.len() + count.parse::<usize>().ok()?, byte);
        rest = behind;
    }
    Some(bytes)
}

impl Line {
    /// Reads a line; the error says which field is missing or wrong.
    pub fn read(text: &str) -> Result<Line, String> {
        let mut fields = Fields(text.split(' '));
        let line = match fields.text("sort")? {
            "rewrite" => Line::Rewrite(read_rewrite(&mut fields)?),
            "prune" => Line::Prune(read_prune(&mut fields)?),
            "flags" => Line::Flags(read_flags(&mut fields)?),
            other => return Err(format!("no sort of line is called {other:?}")),
        };
        match fields.0.next() {
            Some(_) => Err("the line has fields left over".into()),
            None => Ok(line),
        }
    }

    /// Replays the line; the error says what differs.
    pub fn replay(&self) -> Result<(), String> {
        match self {
            Line::Rewrite(line) => FILLS.iter().try_for_each(|fill| line.replay(*fill)),
            Line::Prune(line) => FILLS.iter().try_for_each(|fill| line.replay(*fill)),
            Line::Flags(line) => line.replay(),
        }
    }
}

fn read_rewrite(fields: &mut Fields) -> Result<RewriteLine, String> {
    let schema = fields.bytes("schema")?;
    let predicate = fields.bytes("predicate")?;
    let pool = fields.bytes("pool")?;
    let list_limit = fields.number("list limit")?;
    let mut rooms = [0; 4];
    for room in &mut rooms {
        *room = fields.room("room")?;
    }
    let answer = u64::from_str_radix(fields.text("answer")?, 16).map_err(|_| "the answer is not a word in hex")?;
    let mut written = [const { Vec::new() }; 4];
    if answer >> 56 == 0 {
        for output in &mut written {
            *output = fields.bytes("output")?;
        }
    }
    Ok(RewriteLine { schema, predicate, pool, list_limit, rooms, answer, written })
}

fn read_prune(fields: &mut Fields) -> Result<PruneLine, String> {
    let mut line = PruneLine {
        schema: fields.bytes("schema")?,
        table: fields.bytes("table")?,
        table_pool: fields.bytes("table pool")?,
        statistics: fields.bytes("statistics")?,
        guarantees: fields.bytes("guarantees")?,
        containers: fields.number("containers")?,
        grid: fields.bytes("grid")?,
        cell_pool: fields.bytes("cell pool")?,
        answers: fields.bytes("answers")?,
        room: fields.room("flag room")?,
        result: fields.number("result")?,
        flags: Vec::new(),
    };
    if line.result == 0 {
        line.flags = fields.bytes("flags")?;
    }
    Ok(line)
}

fn read_flags(fields: &mut Fields) -> Result<FlagsLine, String> {
    Ok(FlagsLine {
        schema: fields.bytes("schema")?,
        predicate: fields.bytes("predicate")?,
        pool: fields.bytes("pool")?,
        list_limit: fields.number("list limit")?,
        containers: fields.number("containers")?,
        summaries: fields.bytes("summaries")?,
        cell_pool: fields.bytes("cell pool")?,
        flags: fields.bytes("flags")?,
    })
}

/// Two patterns to fill outputs with. They differ in every bit, so a byte written where none may be shows in one of them.
const FILLS: [u8; 2] = [0x35, 0xCA];

fn filled(length: usize, fill: u8) -> Vec<u8> {
    (0..length).map(|i| fill ^ (i as u8)).collect()
}

/// Compares an output with its recorded front, then the old pattern.
fn same(name: &str, got: &[u8], front: &[u8], fill: u8) -> Result<(), String> {
    let mut want = filled(got.len(), fill);
    let Some(place) = want.get_mut(..front.len()) else {
        return Err(format!("{name}: {} bytes are recorded, {} were lent", front.len(), got.len()));
    };
    place.copy_from_slice(front);
    match got.iter().zip(&want).position(|(g, w)| g != w) {
        None => Ok(()),
        Some(at) if at < front.len() => Err(format!("{name}, byte {at}: {:02X}, not {:02X}", got[at], want[at])),
        Some(at) => Err(format!("{name}, byte {at}: written, though only {} bytes are counted", front.len())),
    }
}

impl RewriteLine {
    fn replay(&self, fill: u8) -> Result<(), String> {
        let [mut table, mut pool, mut statistics, mut guarantees] = self.rooms.map(|room| filled(room, fill));
        let answer = raw::rewrite_into(
            RewriteInput {
                schema: &self.schema,
                predicate: &self.predicate,
                pool: &self.pool,
                list_limit: self.list_limit,
            },
            RewriteOutput {
                table: &mut table,
                pool: &mut pool,
                statistics: &mut statistics,
                guarantees: &mut guarantees,
            },
        );
        if answer != self.answer {
            return Err(format!("answer {answer:016X}, not {:016X}", self.answer));
        }
        same("table", &table, &self.written[0], fill)?;
        same("pool", &pool, &self.written[1], fill)?;
        same("statistics", &statistics, &self.written[2], fill)?;
        same("guarantees", &guarantees, &self.written[3], fill)
    }
}

impl PruneLine {
    fn replay(&self, fill: u8) -> Result<(), String> {
        let mut flags = filled(self.room, fill);
        let result = raw::prune_into(
            PruneInput {
                schema: &self.schema,
                table: &self.table,
                table_pool: &self.table_pool,
                statistics: &self.statistics,
                guarantees: &self.guarantees,
                containers: self.containers,
                grid: &self.grid,
                cell_pool: &self.cell_pool,
                answers: &self.answers,
            },
            &mut flags,
        );
        if result != self.result {
            return Err(format!("result {result}, not {}", self.result));
        }
        same("flags", &flags, &self.flags, fill)
    }
}

impl FlagsLine {
    fn replay(&self) -> Result<(), String> {
        let rewritten = packed::rewrite(&self.schema, &self.predicate, &self.pool, self.list_limit)
            .map_err(|refusal| format!("rewriting: {refusal}"))?;
        let cells =
            self.grid(&rewritten.statistics).ok_or("the summaries have not four cells a container and column")?;
        let grid = Grid { containers: self.containers, cells: &cells, cell_pool: &self.cell_pool, answers: &[] };
        let kept = packed::prune(&self.schema, &rewritten, grid).map_err(|refusal| format!("pruning: {refusal}"))?;
        let flags: Vec<u8> = kept.into_iter().map(u8::from).collect();
        if flags == self.flags { Ok(()) } else { Err(format!("flags {flags:?}, not {:?}", self.flags)) }
    }

    /// The grid that a statistics list asks for, picked out of the summaries.
    pub fn grid(&self, statistics: &[u8]) -> Option<Vec<u8>> {
        let per_container = self.schema.len() * 32;
        let containers = usize::try_from(self.containers).ok()?;
        if self.summaries.len() != containers.checked_mul(per_container)? {
            return None;
        }
        let mut grid = Vec::new();
        for container in self.summaries.chunks_exact(per_container.max(1)) {
            for entry in statistics.chunks_exact(8) {
                // A statistic's word begins with its column, then two bits for its type.
                let at = usize::from(entry[0]) * 32 + usize::from(entry[1] >> 6) * 8;
                grid.extend_from_slice(container.get(at..at + 8)?);
            }
        }
        Some(grid)
    }
}
