//! The builders: packing round-trips, statistics and answers by name, mistakes told apart.

use filughjosa::packed;
use filughjosa::vectors::{Line, RewriteLine};
use filughjosa::{
    Answer, Asked, Block, Cell, Column, ColumnType, Error, Kind, Operator, Packed, Plan, Predicate, Refusal, Schema,
    Summary, Value, col,
};
use std::fs;

/// The recorded calls of rewriting.
fn recorded() -> Vec<RewriteLine> {
    let list = concat!(env!("CARGO_MANIFEST_DIR"), "/vectors/paper.txt");
    let text = fs::read_to_string(list).unwrap();
    let lines = text.lines().map(|line| Line::read(line).unwrap());
    lines.filter_map(|line| if let Line::Rewrite(rewrite) = line { Some(rewrite) } else { None }).collect()
}

/// A schema with names, for a packed one that has none.
fn named(packed: &[u8]) -> Option<Schema> {
    let kind =
        |byte: u8| [ColumnType::Integer, ColumnType::Text, ColumnType::Truth].get(usize::from(byte) - 1).copied();
    let columns: Option<Vec<_>> =
        packed.iter().enumerate().map(|(at, byte)| Some((format!("c{at}"), kind(*byte)?))).collect();
    Schema::new(columns?).ok()
}

#[test]
fn recorded_predicates_are_read_and_packed_again() {
    let mut accepted = 0;
    for line in recorded().into_iter().filter(|line| line.answer >> 56 == 0) {
        let schema = named(&line.schema).unwrap();
        let source = Packed { words: line.predicate, pool: line.pool };
        let predicate = source.read(&schema).unwrap();
        let again = Packed::new(&schema, &predicate).unwrap();
        assert_eq!(again.read(&schema).unwrap(), predicate);
        // Only ranges of the pool may have moved, so what rewriting makes of it is the same.
        let rewritten = packed::rewrite(&line.schema, &again.words, &again.pool, line.list_limit).unwrap();
        let outputs = [rewritten.table, rewritten.pool, rewritten.statistics, rewritten.guarantees];
        assert_eq!(outputs, line.written);
        accepted += 1;
    }
    assert!(accepted > 1000);
}

#[test]
fn malformed_words_are_not_read() {
    let mut malformed = 0;
    for line in recorded().into_iter().filter(|line| line.answer >> 56 == 4) {
        let Some(schema) = named(&line.schema) else { continue };
        let source = Packed { words: line.predicate, pool: line.pool };
        assert!(matches!(source.read(&schema), Err(Error::BadWord(_))));
        malformed += 1;
    }
    assert!(malformed > 100);
}

/// Numbers that look random and are the same in each run.
struct Dice(u64);

impl Dice {
    fn roll(&mut self, below: u64) -> u64 {
        self.0 = self.0.wrapping_mul(6364136223846793005).wrapping_add(1442695040888963407);
        (self.0 >> 33) % below
    }

    fn value(&mut self) -> Value {
        match self.roll(4) {
            0 => Value::Null,
            1 => Value::Integer(self.roll(1 << 30) as i64 - (1 << 29)),
            2 => Value::Text((0..self.roll(12)).map(|_| self.roll(256) as u8).collect()),
            _ => Value::Truth(self.roll(2) == 1),
        }
    }

    fn name(&mut self) -> String {
        format!("c{}", self.roll(3))
    }

    fn column(&mut self) -> Column {
        Column { name: self.name(), flips: self.roll(3) as u8 }
    }

    fn predicate(&mut self, depth: u64) -> Predicate {
        match self.roll(if depth == 0 { 7 } else { 10 }) {
            0 => Predicate::Constant([Some(false), Some(true), None][self.roll(3) as usize]),
            1 => Predicate::Truth(self.name()),
            2 => Predicate::IsNull(self.name()),
            3 => Predicate::IsNotNull(self.name()),
            4 => Predicate::Compare {
                column: self.column(),
                operator: Operator::ALL[self.roll(8) as usize],
                literal: self.value(),
                literal_first: self.roll(2) == 1,
            },
            5 => Predicate::List {
                column: self.column(),
                negated: self.roll(2) == 1,
                literals: (0..self.roll(5)).map(|_| self.value()).collect(),
            },
            6 => Predicate::Like { column: self.name(), negated: self.roll(2) == 1, pattern: self.value() },
            7 => self.predicate(depth - 1) & self.predicate(depth - 1),
            8 => self.predicate(depth - 1) | self.predicate(depth - 1),
            _ => !self.predicate(depth - 1),
        }
    }
}

#[test]
fn any_predicate_is_packed_and_read_back() {
    let schema = named(&[1, 2, 3]).unwrap();
    let mut dice = Dice(1);
    for _ in 0..2000 {
        let predicate = dice.predicate(5);
        let packed = Packed::new(&schema, &predicate).unwrap();
        assert_eq!(packed.read(&schema), Ok(predicate));
    }
}

fn shop() -> Schema {
    let columns = [("price", ColumnType::Integer), ("item", ColumnType::Text), ("sold", ColumnType::Truth)];
    Schema::new(columns).unwrap()
}

#[test]
fn statistics_are_asked_by_name() {
    let plan = Plan::new(&shop(), &(col("item").like("b%") & col("price").gt(5))).unwrap();
    let asked: Vec<String> = plan.asked().iter().map(Asked::to_string).collect();
    let want = ["least item", "greatest item", "blanks of item", "rows", "greatest price", "blanks of price"];
    assert_eq!(asked, want);
}

#[test]
fn cells_may_come_from_anywhere() {
    let plan = Plan::new(&shop(), &col("price").gt(5)).unwrap();
    let greatest = [3, 9, 5];
    let cell = |block: usize, asked: &Asked| match asked.kind {
        Kind::Greatest => Cell::Integer(greatest[block]),
        Kind::Blanks => Cell::Count(0),
        Kind::Rows => Cell::Count(u64::MAX),
        Kind::Least => Cell::Absent,
    };
    assert_eq!(plan.keep_with(3, cell, |_, _| Answer::Unknown), Ok(vec![false, true, false]));
}

#[test]
fn answers_drop_blocks() {
    let schema = shop();
    let wide = || Block::new().rows(9).column("price", Summary::bounds(0, 100).blanks(0));
    let plan = Plan::new(&schema, &(col("price").is_in([5, 7]) & col("sold").ne(true))).unwrap();
    let [inside, outside] = plan.guarantees() else { panic!("two guarantees") };
    assert_eq!((inside.column.as_str(), inside.not_in, &inside.set), ("price", false, &vec![5.into(), 7.into()]));
    assert_eq!((outside.column.as_str(), outside.not_in, &outside.set), ("sold", true, &vec![true.into()]));
    let judged = |first, second| plan.keep(&[wide().answers([first, second])]).unwrap()[0];
    assert!(judged(Answer::Unknown, Answer::Unknown));
    assert!(judged(Answer::AllInside, Answer::NoneInside));
    assert!(!judged(Answer::NoneInside, Answer::Unknown));
    assert!(!judged(Answer::Unknown, Answer::AllInside));
    // Answers worked out from the values themselves.
    let values = |values: [i64; 2]| Answer::of(inside, &values.map(Value::from));
    assert_eq!(values([5, 7]), Answer::AllInside);
    assert_eq!(values([6, 8]), Answer::NoneInside);
    assert_eq!(values([5, 8]), Answer::Unknown);
}

#[test]
fn more_blocks_than_a_call_takes_are_judged_in_pieces() {
    let plan = Plan::new(&shop(), &col("price").eq(5000)).unwrap();
    let block = |at: i64| Block::new().rows(2).column("price", Summary::bounds(at, at + 1).blanks(0));
    let kept = plan.keep(&(0..9000).map(block).collect::<Vec<_>>()).unwrap();
    assert_eq!(kept.len(), 9000);
    let places: Vec<usize> = (0..9000).filter(|at| kept[*at]).collect();
    assert_eq!(places, [4999, 5000]);
}

#[test]
fn long_texts_are_judged_in_pieces_or_left_out() {
    let plan = Plan::new(&shop(), &col("item").eq("b")).unwrap();
    let block = |first: &str, length: usize| {
        let bound = first.repeat(length);
        Block::new().rows(2).column("item", Summary::bounds(bound.as_str(), bound.as_str()).blanks(0))
    };
    // A thousand blocks of 32 KB pass what a cell's offset can say in one call.
    let many: Vec<Block> = (0..1000).map(|_| block("a", 16_383)).collect();
    assert_eq!(plan.keep(&many), Ok(vec![false; 1000]));
    // One byte longer is more than a cell can say, so nothing is known of the bounds.
    assert_eq!(plan.keep(&[block("a", 16_384)]), Ok(vec![true]));
}

#[test]
fn no_blocks_at_all() {
    let plan = Plan::new(&shop(), &col("price").eq(5)).unwrap();
    assert_eq!(plan.keep(&[]), Ok(vec![]));
}

#[test]
fn many_parts_stay_within_the_depth() {
    let schema = shop();
    let parts = |count: i64| (0..count).map(|at| col("price").ne(at));
    assert!(Plan::new(&schema, &Predicate::all(parts(100))).is_ok());
    assert!(Plan::new(&schema, &Predicate::any(parts(100))).is_ok());
    assert_eq!(Plan::new(&schema, &Predicate::all(parts(200))).err(), Some(Error::Refused(Refusal::OverLimit)));
    let nested = parts(40).reduce(|left, right| left & right).unwrap();
    assert_eq!(Plan::new(&schema, &nested).err(), Some(Error::Refused(Refusal::OverLimit)));
    assert_eq!(Predicate::all([]), Predicate::Constant(Some(true)));
    assert_eq!(Predicate::any([]), Predicate::Constant(Some(false)));
}

#[test]
fn mistakes_are_told_apart() {
    let schema = shop();
    let fails = |predicate: Predicate| Plan::new(&schema, &predicate).err().unwrap();
    assert_eq!(fails(col("prize").eq(1)), Error::NoColumn("prize".into()));
    assert_eq!(fails(col("price").eq("a")), Error::Refused(Refusal::Misfit));
    assert_eq!(fails(col("price").truth()), Error::Refused(Refusal::Misfit));
    assert_eq!(fails(col("item").eq("a".repeat(1025).as_str())), Error::Refused(Refusal::OverLimit));
    assert_eq!(fails(col("item").eq("a".repeat(16_384).as_str())), Error::LiteralTooLong);
    assert_eq!(fails(col("price").is_in(0..40_000)), Error::ListTooLong);
    let limit = Plan::with_list_limit(&schema, &col("price").eq(1), 257);
    assert_eq!(limit.err(), Some(Error::Refused(Refusal::ListLimitOrPool)));
    let plan = Plan::new(&schema, &col("price").eq(1)).unwrap();
    let wrong = plan.keep(&[Block::new(), Block::new().column("price", Summary::bounds("a", "b"))]);
    let asked = Asked { column: "price".into(), kind: Kind::Least };
    assert_eq!(wrong, Err(Error::WrongType { block: 1, asked }));
    assert_eq!(plan.keep(&[Block::new().column("prize", Summary::unknown())]), Err(Error::NoColumn("prize".into())));
    let answers = plan.keep(&[Block::new().answers([Answer::Unknown; 2])]);
    assert_eq!(answers, Err(Error::WrongAnswers { block: 0, guarantees: 1 }));
    let many = Schema::new((0..65).map(|at| (format!("c{at}"), ColumnType::Text)));
    assert_eq!(many, Err(Error::TooManyColumns));
}

#[test]
fn flips_of_a_column() {
    assert_eq!((-col("c")).flips, 1);
    assert_eq!((0..256).fold(col("c"), |column, _| -column).flips, 254);
    assert_eq!((!col("c")).truth(), !col("c").truth());
}

#[test]
fn summaries_of_values() {
    let values = [Value::Integer(3), Value::Null, Value::Integer(-2)];
    assert_eq!(Summary::of(&values), Summary::bounds(-2, 3).blanks(1));
    assert_eq!(Summary::of(&[]), Summary::unknown().blanks(0));
}

#[test]
fn refusals_have_their_numbers_and_sentences() {
    for (at, refusal) in Refusal::ALL.into_iter().enumerate() {
        assert_eq!(usize::from(refusal.number()), at + 1);
        assert!(refusal.to_string().starts_with(&format!("refusal {}: ", at + 1)));
    }
}
