//! Document 01's cases and its whole example, through the packed calls and through the builders.

use filughjosa::packed::{self, Grid};
use filughjosa::raw::{self, RewriteInput, RewriteOutput};
use filughjosa::vectors::read_bytes;
use filughjosa::{Block, ColumnType, Kind, Packed, Plan, Predicate, Schema, Summary, Value, col, formula};

fn hex(text: &str) -> Vec<u8> {
    read_bytes(&text.replace(' ', "")).expect("hex")
}

/// One column c of a type.
fn column(kind: ColumnType) -> Schema {
    Schema::new([("c", kind)]).unwrap()
}

/// Whether one block is kept.
fn keeps(kind: ColumnType, predicate: Predicate, block: Block) -> bool {
    Plan::new(&column(kind), &predicate).unwrap().keep(&[block]).unwrap()[0]
}

fn integers(predicate: Predicate, block: Block) -> bool {
    keeps(ColumnType::Integer, predicate, block)
}

/// Bounds 10..20, blanks 0, rows 5.
fn ten_to_twenty() -> Block {
    Block::new().rows(5).column("c", Summary::bounds(10, 20).blanks(0))
}

/// The whole example, all of its byte strings beginning `shift` bytes into a buffer.
fn whole(shift: usize) {
    let shifted = |bytes: &[u8]| [&vec![0; shift][..], bytes].concat();
    let inputs = ["01", "7400000000000000 4008000000000000", "0000000000000005"].map(|text| shifted(&hex(text)));
    let [schema, predicate, pool] = inputs.each_ref().map(|input| &input[shift..]);
    let rooms = [raw::TABLE_ROOM, raw::TABLE_POOL_ROOM, raw::STATISTICS_ROOM, raw::GUARANTEES_ROOM];
    let mut lent = rooms.map(|room| vec![0xEE; shift + room]);
    let [lent_table, lent_pool, lent_statistics, lent_guarantees] = lent.each_mut().map(|output| &mut output[shift..]);
    let answer = raw::rewrite_into(
        RewriteInput { schema, predicate, pool, list_limit: 20 },
        RewriteOutput { table: lent_table, pool: lent_pool, statistics: lent_statistics, guarantees: lent_guarantees },
    );
    assert_eq!(answer, 0x0000_0400_0803_0000);
    let table = "1000000000000000 5001020000000000 3400000000000000 4008000000000000";
    let statistics = "0040000000000000 0080000000000000 00C0000000000000";
    for (got, front) in lent.iter().zip([table, "0000000000000005", statistics, ""].map(hex)) {
        let (before, got) = got.split_at(shift);
        assert_eq!(got[..front.len()], front[..]);
        assert!(before.iter().chain(&got[front.len()..]).all(|byte| *byte == 0xEE));
    }
}

#[test]
fn the_whole_example_is_answered_byte_for_byte() {
    whole(0);
}

#[test]
fn bytes_need_no_alignment() {
    (1..8).for_each(whole);
}

#[test]
fn the_builders_make_the_whole_example() {
    let schema = column(ColumnType::Integer);
    let packed = Packed::new(&schema, &col("c").gt(5)).unwrap();
    assert_eq!(schema.packed(), hex("01"));
    assert_eq!(packed.words, hex("7400000000000000 4008000000000000"));
    assert_eq!(packed.pool, hex("0000000000000005"));
    let rewritten = packed::rewrite(&schema.packed(), &packed.words, &packed.pool, 20).unwrap();
    assert_eq!(&rewritten, Plan::new(&schema, &col("c").gt(5)).unwrap().rewritten());
    // Greatest 5, blanks 0, rows 5: dropped; greatest 6: kept.
    let cells =
        hex("4008000000000000 4008000000000008 4008000000000010 4008000000000018 4008000000000008 4008000000000010");
    let cell_pool = hex("0000000000000005 0000000000000000 0000000000000005 0000000000000006");
    let grid = Grid { containers: 2, cells: &cells, cell_pool: &cell_pool, answers: &[] };
    assert_eq!(packed::prune(&schema.packed(), &rewritten, grid), Ok(vec![false, true]));
}

#[test]
fn equality_against_bounds() {
    assert!(!integers(col("c").eq(9), ten_to_twenty()));
    assert!(integers(col("c").eq(10), ten_to_twenty()));
    assert!(integers(col("c").eq(20), ten_to_twenty()));
    assert!(!integers(col("c").eq(21), ten_to_twenty()));
    assert!(integers(col("c").eq(Value::Null), ten_to_twenty()));
}

#[test]
fn inequality_needs_one_value_only() {
    let block = |greatest| Block::new().rows(5).column("c", Summary::bounds(7, greatest).blanks(0));
    assert!(!integers(col("c").ne(7), block(7)));
    assert!(integers(col("c").ne(7), block(8)));
}

#[test]
fn blanks_only() {
    let block = Block::new().rows(5).column("c", Summary::unknown().blanks(5));
    assert!(!integers(col("c").eq(3), block));
}

#[test]
fn rows_absent() {
    let block = |greatest: i64| Block::new().column("c", Summary::bounds(Value::Null, greatest).blanks(3));
    assert!(!integers(col("c").gt(5), block(5)));
    assert!(integers(col("c").gt(5), block(6)));
}

#[test]
fn distinct_from_is_not_wrapped() {
    let block = Block::new().rows(0).column("c", Summary::bounds(1, 2).blanks(0));
    assert!(integers(col("c").distinct_from(7), block));
}

#[test]
fn minus_turns_a_comparison_round() {
    let block = |greatest: i64| Block::new().rows(5).column("c", Summary::bounds(-9, greatest).blanks(0));
    assert!(!integers((-col("c")).lt(5), block(-5)));
    assert!(integers((-col("c")).lt(5), block(-4)));
    assert!(integers((-col("c")).gt(i64::MIN), block(-5)));
}

#[test]
fn like_and_its_upper_bound() {
    let block = |least: &str| Block::new().rows(5).column("c", Summary::bounds(least, "az").blanks(0));
    assert!(keeps(ColumnType::Text, col("c").like("ab%"), block("ac")));
    assert!(!keeps(ColumnType::Text, col("c").like("ab%"), block("ad")));
    // Past U+D7FF lie the surrogates, so the upper bound of 'a' U+D7FF '%' is 'b'.
    let pattern = "a\u{D7FF}%";
    let plan = Plan::new(&column(ColumnType::Text), &col("c").like(pattern)).unwrap();
    assert!(plan.rewritten().pool.starts_with("ba\u{D7FF}".as_bytes()));
    // U+10FFFF has nothing above it: unhandled, one word, true; least and greatest are listed all the same.
    let plan = Plan::new(&column(ColumnType::Text), &col("c").like("\u{10FFFF}%")).unwrap();
    assert_eq!(plan.rewritten().table, hex("0100000000000000"));
    assert_eq!(plan.asked().iter().map(|asked| asked.kind).collect::<Vec<_>>(), [Kind::Least, Kind::Greatest]);
}

#[test]
fn false_and_a_comparison_folds_and_lists_four_statistics() {
    let schema = column(ColumnType::Integer);
    let plan = Plan::new(&schema, &(Predicate::Constant(Some(false)) & col("c").eq(1))).unwrap();
    assert_eq!(plan.rewritten().table, hex("0000000000000000"));
    assert_eq!(plan.asked().len(), 4);
    assert_eq!(plan.keep(&[Block::new()]), Ok(vec![false]));
}

#[test]
fn lists_up_to_the_limit_are_rewritten() {
    let words = |count: i64| {
        let plan = Plan::new(&column(ColumnType::Integer), &col("c").is_in(0..count)).unwrap();
        plan.rewritten().table.len() / 8
    };
    // Each member takes an AND, the blanks test, and an AND of two comparisons; an OR joins two.
    assert_eq!(words(20), 20 * 7 + 19);
    assert_eq!(words(21), 1);
    assert_eq!(words(0), 1);
}

#[test]
fn bounds_that_contradict_drop() {
    let block = Block::new().rows(5).column("c", Summary::bounds(9, 3).blanks(0));
    assert!(!integers(col("c").eq(5), block));
}

#[test]
fn formulas_say_the_same() {
    let schema = column(ColumnType::Integer);
    let blocks: Vec<Block> = [(1, 4), (4, 9), (10, 20), (-20, -10)]
        .map(|(least, greatest)| Block::new().rows(9).column("c", Summary::bounds(least, greatest).blanks(0)))
        .into();
    for (text, predicate) in [
        ("c = 9", col("c").eq(9)),
        ("10 <= c", col("c").ge(10)),
        ("-c < 5", (-col("c")).lt(5)),
        ("c BETWEEN 5 AND 10", col("c").ge(5) & col("c").le(10)),
        ("c IN (3, 15) OR c IS NULL", col("c").is_in([3, 15]) | col("c").is_null()),
    ] {
        let read = formula::read(text, &schema).unwrap();
        let plans = [read, predicate].map(|predicate| Plan::new(&schema, &predicate).unwrap().keep(&blocks).unwrap());
        assert_eq!(plans[0], plans[1], "{text}");
        assert!(plans[0].contains(&true) && plans[0].contains(&false), "{text}");
    }
}
