//! Checked tables: a table, its statistics and its guarantees, read back from their words.

use super::PruneCall;
use crate::guarantee::Guarantee;
use crate::limits;
use crate::literal::{Literal, LiteralWord, Type};
use crate::predicate::Operator;
use crate::statistic::{Kind, Place, Statistic};
use crate::table::{Against, Table};
use crate::word::{field, words};

pub struct Checked<'a> {
    pub table: Table<'a>,
    pub statistics: Vec<Statistic>,
    pub guarantees: Vec<Guarantee>,
}

/// What the bytes say, or nothing if they break a rule.
pub fn read_checked<'a>(schema: &[Type], call: &PruneCall<'a>) -> Option<Checked<'a>> {
    let fits = call.table.len() <= limits::TABLE_ROOM
        && call.table_pool.len() <= limits::TABLE_POOL_ROOM
        && call.statistics.len() <= limits::STATISTICS_ROOM
        && call.guarantees.len() <= limits::GUARANTEES_ROOM;
    if !fits {
        return None;
    }
    let statistics = read_statistics(schema, &words(call.statistics)?)?;
    let guarantees = read_guarantees(schema, &words(call.guarantees)?)?;
    let words = words(call.table)?;
    let mut reader = Reader { schema, statistics: &statistics, pool: call.table_pool, words: words.iter() };
    let table = reader.table(1)?;
    let nothing_over = reader.words.next().is_none();
    nothing_over.then_some(Checked { table, statistics, guarantees })
}

fn read_statistics(schema: &[Type], words: &[u64]) -> Option<Vec<Statistic>> {
    let mut statistics = Vec::with_capacity(words.len());
    for word in words {
        let statistic = Statistic::read(*word)?;
        let named =
            (statistic.column as usize) < schema.len() && (statistic.kind != Kind::Rows || statistic.column == 0);
        if !named || statistics.contains(&statistic) {
            return None;
        }
        statistics.push(statistic);
    }
    Some(statistics)
}

fn read_guarantees(schema: &[Type], words: &[u64]) -> Option<Vec<Guarantee>> {
    let read = |word: &u64| Guarantee::read(*word).filter(|guarantee| (guarantee.column as usize) < schema.len());
    words.iter().map(read).collect()
}

struct Reader<'c, 'a> {
    schema: &'c [Type],
    statistics: &'c [Statistic],
    pool: &'a [u8],
    words: std::slice::Iter<'c, u64>,
}

impl<'a> Reader<'_, 'a> {
    fn table(&mut self, depth: usize) -> Option<Table<'a>> {
        let word = *self.words.next()?;
        let [operator, first, second] = [(4, 4), (8, 8), (16, 8)].map(|(from, width)| field(word, from, width) as u8);
        let literal_first = field(word, 24, 1) == 1;
        let kind = field(word, 0, 4);
        let sound = depth <= limits::TABLE_DEPTH
            && field(word, 25, 39) == 0
            && (matches!(kind, 0 | 3) || operator == 0)
            && (matches!(kind, 3..=6) || first == 0)
            && (kind == 5 || second == 0)
            && (kind == 3 || !literal_first);
        if !sound {
            return None;
        }
        Some(match kind {
            0 if operator <= 1 => Table::Constant(operator == 1),
            1 => Table::And(self.child(depth)?, self.child(depth)?),
            2 => Table::Or(self.child(depth)?, self.child(depth)?),
            3 => self.against(operator, first, literal_first)?,
            4 => Table::SomeBlank(self.place(first, &[Kind::Blanks])?),
            5 => Table::SomeValue {
                blanks: self.place(first, &[Kind::Blanks])?,
                rows: self.place(second, &[Kind::Rows])?,
            },
            6 if self.column_type(first)? == Type::Truth => {
                Table::Truth(self.place(first, &[Kind::Least, Kind::Greatest])?)
            }
            7 => Table::Not(self.child(depth)?),
            _ => return None,
        })
    }

    fn child(&mut self, depth: usize) -> Option<Box<Table<'a>>> {
        self.table(depth + 1).map(Box::new)
    }

    /// The place of a listed statistic of one of these kinds.
    fn place(&self, place: u8, kinds: &[Kind]) -> Option<Place> {
        let statistic = self.statistics.get(place as usize)?;
        kinds.contains(&statistic.kind).then_some(Place(place))
    }

    /// The type of the column of the statistic at this place.
    fn column_type(&self, place: u8) -> Option<Type> {
        let statistic = self.statistics.get(place as usize)?;
        self.schema.get(statistic.column as usize).copied()
    }

    fn against(&mut self, operator: u8, first: u8, literal_first: bool) -> Option<Table<'a>> {
        let operator = Operator::from_code(operator)?;
        if matches!(operator, Operator::DistinctFrom | Operator::NotDistinctFrom) {
            return None;
        }
        let place = self.place(first, &[Kind::Least, Kind::Greatest])?;
        let literal = self.literal(self.column_type(first)?)?;
        Some(Table::Against(Against { place, operator, literal_first, literal }))
    }

    fn literal(&mut self, column_type: Type) -> Option<Literal<'a>> {
        let word = LiteralWord::read(*self.words.next()?);
        let long = column_type == Type::Text && word.length > limits::TABLE_TEXT_BYTES;
        if !word.form_is_sound() || long {
            return None;
        }
        if word.is_null() {
            return Some(None);
        }
        word.value(column_type, self.pool).map(Some)
    }
}
