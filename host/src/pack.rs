//! Packing a predicate into words and a literal pool, and reading it back.

use crate::error::Error;
use crate::predicate::{Column, Operator, Predicate};
use crate::schema::Schema;
use crate::value::Value;
use crate::word::{self, NODE};

/// A predicate as the C functions take it.
#[derive(Clone, Debug, Default, PartialEq, Eq)]
pub struct Packed {
    /// Node and literal words, in prefix order.
    pub words: Vec<u8>,
    /// The bytes of the literals, one behind the other.
    pub pool: Vec<u8>,
}

/// The fields of a node word; those that a kind has not are 0.
#[derive(Default)]
struct Node {
    kind: u64,
    operator: u64,
    column: u8,
    flips: u8,
    literal_first: bool,
    count: usize,
}

impl Packed {
    /// Packs a predicate. Columns are looked up by name; limits and types are left to rewriting, which refuses.
    ///
    /// ```
    /// use filughjosa::{ColumnType, Packed, Schema, col};
    /// let schema = Schema::new([("c", ColumnType::Integer)])?;
    /// let packed = Packed::new(&schema, &col("c").gt(5))?;
    /// assert_eq!(packed.words, [0x74, 0, 0, 0, 0, 0, 0, 0, 0x40, 0x08, 0, 0, 0, 0, 0, 0]);
    /// assert_eq!(packed.pool, [0, 0, 0, 0, 0, 0, 0, 5]);
    /// assert_eq!(packed.read(&schema)?, col("c").gt(5));
    /// # Ok::<(), filughjosa::Error>(())
    /// ```
    pub fn new(schema: &Schema, predicate: &Predicate) -> Result<Packed, Error> {
        let mut packed = Packed::default();
        packed.put(schema, predicate)?;
        Ok(packed)
    }

    /// Reads the predicate back. Words that stand for nothing, or are left over, are an error with their place.
    pub fn read(&self, schema: &Schema) -> Result<Predicate, Error> {
        let mut reader = Reader { schema, words: word::words(&self.words).collect(), pool: &self.pool, at: 0 };
        let predicate = reader.predicate(MAX_DEPTH)?;
        if reader.at * 8 == self.words.len() { Ok(predicate) } else { Err(Error::BadWord(reader.at)) }
    }

    fn put(&mut self, schema: &Schema, predicate: &Predicate) -> Result<(), Error> {
        let number = |name: &str| schema.column(name).ok_or_else(|| Error::NoColumn(name.into()));
        match predicate {
            Predicate::Constant(value) => {
                let operator = value.map_or(2, u64::from);
                self.node(Node { operator, ..Node::default() });
            }
            Predicate::And(left, right) => return self.pair(schema, 1, left, right),
            Predicate::Or(left, right) => return self.pair(schema, 2, left, right),
            Predicate::Not(inner) => {
                self.node(Node { kind: 3, ..Node::default() });
                return self.put(schema, inner);
            }
            Predicate::Truth(name) => self.node(Node { kind: 4, column: number(name)?, ..Node::default() }),
            Predicate::IsNull(name) => self.node(Node { kind: 5, column: number(name)?, ..Node::default() }),
            Predicate::IsNotNull(name) => self.node(Node { kind: 6, column: number(name)?, ..Node::default() }),
            Predicate::Compare { column, operator, literal, literal_first } => {
                let (operator, literal_first) = (*operator as u64, *literal_first);
                let node = Node { kind: 7, operator, literal_first, ..Node::default() };
                self.node(Node { column: number(&column.name)?, flips: column.flips, ..node });
                return self.literals(std::slice::from_ref(literal));
            }
            Predicate::List { column, negated, literals } => {
                let node = Node { kind: 8, operator: u64::from(*negated), count: literals.len(), ..Node::default() };
                self.node(Node { column: number(&column.name)?, flips: column.flips, ..node });
                return self.literals(literals);
            }
            Predicate::Like { column, negated, pattern } => {
                let node = Node { kind: 9, operator: u64::from(*negated), ..Node::default() };
                self.node(Node { column: number(column)?, ..node });
                return self.literals(std::slice::from_ref(pattern));
            }
        }
        Ok(())
    }

    fn pair(&mut self, schema: &Schema, kind: u64, left: &Predicate, right: &Predicate) -> Result<(), Error> {
        self.node(Node { kind, ..Node::default() });
        self.put(schema, left)?;
        self.put(schema, right)
    }

    fn literals(&mut self, literals: &[Value]) -> Result<(), Error> {
        if literals.len() > word::MAX_COUNT {
            return Err(Error::ListTooLong);
        }
        for literal in literals {
            let word = word::put_value(literal, &mut self.pool).ok_or(Error::LiteralTooLong)?;
            self.words.extend_from_slice(&word.to_be_bytes());
        }
        Ok(())
    }

    fn node(&mut self, node: Node) {
        // A count past the field is an error right after, by `literals`.
        let count = node.count.min(word::MAX_COUNT) as u64;
        let fields =
            [node.kind, node.operator, node.column.into(), node.flips.into(), node.literal_first.into(), count];
        self.words.extend_from_slice(&word::pack(NODE, fields).to_be_bytes());
    }
}

/// How deep a packed predicate is read: deeper than rewriting accepts, and no danger to the stack.
const MAX_DEPTH: usize = 256;

/// The words of a packed predicate, read one by one.
struct Reader<'a> {
    schema: &'a Schema,
    words: Vec<u64>,
    pool: &'a [u8],
    at: usize,
}

impl Reader<'_> {
    fn word(&mut self) -> Result<u64, Error> {
        let word = *self.words.get(self.at).ok_or(Error::BadWord(self.at))?;
        self.at += 1;
        Ok(word)
    }

    fn literal(&mut self) -> Result<Value, Error> {
        let at = self.at;
        let word = self.word()?;
        word::get_value(word, self.pool).ok_or(Error::BadWord(at))
    }

    fn predicate(&mut self, depth: usize) -> Result<Predicate, Error> {
        let bad = Error::BadWord(self.at);
        let ([kind, operator, column, flips, first, count], plain) = word::unpack(NODE, self.word()?);
        let unused = match kind {
            0 => column + flips + first + count,
            1..=3 => operator + column + flips + first + count,
            4..=6 => operator + flips + first + count,
            7 => count,
            8 => first,
            _ => flips + first + count,
        };
        if !plain || unused != 0 || depth == 0 {
            return Err(bad);
        }
        let name = || self.schema.name(column as u8).map(str::to_string).ok_or(bad.clone());
        let flipped = || name().map(|name| Column { name, flips: flips as u8 });
        match (kind, operator) {
            (0, 0..=2) => Ok(Predicate::Constant([Some(false), Some(true), None][operator as usize])),
            (1, _) => Ok(self.predicate(depth - 1)? & self.predicate(depth - 1)?),
            (2, _) => Ok(self.predicate(depth - 1)? | self.predicate(depth - 1)?),
            (3, _) => Ok(!self.predicate(depth - 1)?),
            (4, _) => name().map(Predicate::Truth),
            (5, _) => name().map(Predicate::IsNull),
            (6, _) => name().map(Predicate::IsNotNull),
            (7, 0..=7) => self.compare(flipped()?, operator, first == 1),
            (8, 0 | 1) => self.list(flipped()?, operator == 1, count),
            (9, 0 | 1) => self.like(name()?, operator == 1),
            _ => Err(bad),
        }
    }

    fn compare(&mut self, column: Column, operator: u64, literal_first: bool) -> Result<Predicate, Error> {
        let operator = Operator::ALL[operator as usize];
        Ok(Predicate::Compare { column, operator, literal: self.literal()?, literal_first })
    }

    fn list(&mut self, column: Column, negated: bool, count: u64) -> Result<Predicate, Error> {
        let literals = (0..count).map(|_| self.literal()).collect::<Result<_, _>>()?;
        Ok(Predicate::List { column, negated, literals })
    }

    fn like(&mut self, column: String, negated: bool) -> Result<Predicate, Error> {
        Ok(Predicate::Like { column, negated, pattern: self.literal()? })
    }
}
