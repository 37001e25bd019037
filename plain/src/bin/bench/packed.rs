//! An ordinary recursive evaluator that reads the packed table as it stands, with the same checks
//! as pruning has: what a programmer would write without a tree in memory.

use plain::cases::PruneCase;
use plain::kleene::{and, not, or};
use plain::limits;

const LEAST: u64 = 0;
const GREATEST: u64 = 1;
const BLANKS: u64 = 2;
const ROWS: u64 = 3;

pub struct Packed<'a> {
    case: &'a PruneCase,
    width: usize,
}

fn word(bytes: &[u8], index: usize) -> Option<u64> {
    let bytes = bytes.get(index * 8..index * 8 + 8)?;
    Some(u64::from_be_bytes(bytes.try_into().ok()?))
}

fn number(pool: &[u8], literal: u64) -> u64 {
    let offset = (literal & 0xFF_FFFF) as usize;
    u64::from_be_bytes(pool[offset..offset + 8].try_into().expect("eight bytes"))
}

fn text(pool: &[u8], literal: u64) -> &[u8] {
    let offset = (literal & 0xFF_FFFF) as usize;
    &pool[offset..offset + (literal >> 48 & 0x3FFF) as usize]
}

/// Is it a null, or a literal of the type with a good length that lies in the pool?
fn literal_is_sound(literal: u64, wanted: u64, pool: &[u8]) -> bool {
    let (code, length, offset) = (literal >> 62, literal >> 48 & 0x3FFF, literal & 0xFF_FFFF);
    if code == 0 {
        return literal == 0;
    }
    let sized = match wanted {
        1 => length == 8,
        2 => true,
        _ => return code == wanted && literal & 0x3FFF_FFFF_FFFF_FFFE == 0,
    };
    let zero = literal >> 24 & 0xFF_FFFF;
    code == wanted && sized && zero == 0 && offset + length <= pool.len() as u64
}

impl<'a> Packed<'a> {
    pub fn new(case: &'a PruneCase) -> Packed<'a> {
        Packed { case, width: case.statistics.len() / 8 }
    }

    /// Column and kind of a listed statistic.
    fn statistic(&self, place: usize) -> Option<(usize, u64)> {
        let word = word(&self.case.statistics, place)?;
        Some(((word >> 56) as usize, word >> 54 & 3))
    }

    fn column_type(&self, column: usize) -> u64 {
        self.case.schema[column] as u64
    }

    /// The table check: lists, then one prefix tree with nothing over.
    pub fn table_is_sound(&self) -> bool {
        let case = self.case;
        let sized = case.table.len() <= limits::TABLE_ROOM
            && case.table_pool.len() <= limits::TABLE_POOL_ROOM
            && case.statistics.len() <= limits::STATISTICS_ROOM
            && case.guarantees.len() <= limits::GUARANTEES_ROOM;
        let whole = [&case.table, &case.statistics, &case.guarantees];
        if !sized || whole.iter().any(|bytes| bytes.len() % 8 != 0) || !self.lists_are_sound() {
            return false;
        }
        let mut at = 0;
        self.node_is_sound(&mut at, limits::TABLE_DEPTH).is_some() && at * 8 == case.table.len()
    }

    fn lists_are_sound(&self) -> bool {
        let columns = self.case.schema.len();
        let statistics: Vec<u64> = (0..self.width).filter_map(|i| word(&self.case.statistics, i)).collect();
        let named = statistics.iter().enumerate().all(|(i, word)| {
            let (column, kind) = ((word >> 56) as usize, word >> 54 & 3);
            let first = kind != ROWS || column == 0;
            column < columns && first && word << 10 == 0 && !statistics[..i].contains(word)
        });
        let guarantees = self.case.guarantees.len() / 8;
        let stated = (0..guarantees).all(|i| {
            let word = word(&self.case.guarantees, i).unwrap_or(u64::MAX);
            ((word >> 56) as usize) < columns && word << 25 == 0
        });
        named && stated
    }

    fn node_is_sound(&self, at: &mut usize, depth: usize) -> Option<()> {
        let node = word(&self.case.table, *at)?;
        *at += 1;
        let (kind, operator) = (node >> 60, node >> 56 & 15);
        let (first, second) = ((node >> 48 & 255) as usize, (node >> 40 & 255) as usize);
        let used = match kind {
            0 => 0x01 << 56,
            3 => 0x0F_FF_00_80 << 32,
            4 | 6 => 0x00_FF_00_00 << 32,
            5 => 0x00_FF_FF_00 << 32,
            _ => 0,
        };
        if depth == 0 || node & !(0xF << 60 | used) != 0 {
            return None;
        }
        match kind {
            0 => Some(()),
            1 | 2 => {
                self.node_is_sound(at, depth - 1)?;
                self.node_is_sound(at, depth - 1)
            }
            3 if operator <= 5 => self.against_is_sound(at, first),
            4 => (self.statistic(first)?.1 == BLANKS).then_some(()),
            5 => {
                let blanks = self.statistic(first)?.1 == BLANKS;
                (blanks && self.statistic(second)?.1 == ROWS).then_some(())
            }
            6 => {
                let (column, kind) = self.statistic(first)?;
                (kind <= GREATEST && self.column_type(column) == 3).then_some(())
            }
            7 => self.node_is_sound(at, depth - 1),
            _ => None,
        }
    }

    fn against_is_sound(&self, at: &mut usize, place: usize) -> Option<()> {
        let (column, kind) = self.statistic(place)?;
        let literal = word(&self.case.table, *at)?;
        *at += 1;
        let short = (literal >> 48 & 0x3FFF) as usize <= limits::TABLE_TEXT_BYTES;
        let sound = literal_is_sound(literal, self.column_type(column), &self.case.table_pool);
        ((kind == LEAST || kind == GREATEST) && short && sound).then_some(())
    }

    /// The grid check: a sound cell for every container and statistic.
    pub fn grid_is_sound(&self) -> bool {
        let cells = self.case.containers as usize * self.width;
        self.case.grid.len() == cells * 8
            && (0..cells).all(|i| {
                let (column, kind) = self.statistic(i % self.width).unwrap_or_default();
                let wanted = if kind >= BLANKS { 1 } else { self.column_type(column) };
                let cell = word(&self.case.grid, i).unwrap_or_default();
                literal_is_sound(cell, wanted, &self.case.cell_pool)
            })
    }

    /// The flags, once everything is checked.
    pub fn flags(&self, flags: &mut [u8]) {
        for (container, flag) in flags.iter_mut().enumerate() {
            *flag = (self.value(container, &mut 0) != Some(false)) as u8;
        }
    }

    fn cell(&self, container: usize, place: u64) -> Option<u64> {
        let cell = word(&self.case.grid, container * self.width + place as usize)?;
        (cell >> 62 != 0).then_some(cell)
    }

    /// The value of the node at a place in the table, which moves behind it.
    fn value(&self, container: usize, at: &mut usize) -> Option<bool> {
        let node = word(&self.case.table, *at)?;
        *at += 1;
        let (first, second) = (node >> 48 & 255, node >> 40 & 255);
        let count = |place| Some(number(&self.case.cell_pool, self.cell(container, place)?));
        match node >> 60 {
            0 => Some(node >> 56 & 1 == 1),
            1 => {
                let value = self.value(container, at);
                and(value, self.value(container, at))
            }
            2 => {
                let value = self.value(container, at);
                or(value, self.value(container, at))
            }
            3 => self.against(container, at, node),
            4 => Some(count(first)? > 0),
            5 => Some(count(first)? != count(second)?),
            6 => Some(self.cell(container, first)? & 1 == 1),
            _ => not(self.value(container, at)),
        }
    }

    fn against(&self, container: usize, at: &mut usize, node: u64) -> Option<bool> {
        let literal = word(&self.case.table, *at)?;
        *at += 1;
        let cell = self.cell(container, node >> 48 & 255)?;
        let (pool, cells) = (&self.case.table_pool, &self.case.cell_pool);
        let ordering = match literal >> 62 {
            0 => return None,
            1 => (number(cells, cell) as i64).cmp(&(number(pool, literal) as i64)),
            2 => text(cells, cell).cmp(text(pool, literal)),
            _ => (cell & 1).cmp(&(literal & 1)),
        };
        let ordering = if node >> 39 & 1 == 1 { ordering.reverse() } else { ordering };
        Some(match node >> 56 & 15 {
            0 => ordering.is_eq(),
            1 => ordering.is_ne(),
            2 => ordering.is_lt(),
            3 => ordering.is_le(),
            4 => ordering.is_gt(),
            _ => ordering.is_ge(),
        })
    }
}

#[cfg(test)]
mod tests {
    use super::*;
    use plain::generate::{damage, grids, tables};
    use plain::prune::prune;
    use plain::random::Random;
    use plain::refusal;
    use plain::rules::Rules;

    /// It refuses and answers as the plain Rust does, so that the two do the same work.
    #[test]
    fn packed_evaluator_answers_as_the_plain_rust() {
        let mut random = Random::new(4);
        for _ in 0..20_000 {
            let mut case = tables::accepted(&mut random, 15);
            grids::fill(&mut random, &mut case, 3);
            if random.coin() {
                damage::pruning(&mut random, &mut case);
            }
            case.answers.clear();
            let packed = Packed::new(&case);
            match prune(&Rules::SOUND, &case.call()) {
                Err(refusal::TABLE) => assert!(!packed.table_is_sound()),
                Err(refusal::GRID) => assert!(packed.table_is_sound() && !packed.grid_is_sound()),
                Err(_) => {}
                Ok(wanted) => {
                    assert!(packed.table_is_sound() && packed.grid_is_sound());
                    let mut flags = vec![2; wanted.len()];
                    packed.flags(&mut flags);
                    assert_eq!(flags, wanted);
                }
            }
        }
    }
}
