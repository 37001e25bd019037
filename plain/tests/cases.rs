//! The cases that document 01 lists, run on the plain Rust.

use plain::cases::{PruneCase, RewriteCase};
use plain::generate::packer::{Node, Packer};
use plain::literal::{Literal, Value};
use plain::rewrite::Rooms;
use plain::subject::{Plain, Subject};
use plain::word::words;

/// The comparison `column 0 operator literal`.
fn compared(operator: u8, flips: u8, literal: Literal<'static>) -> Packer {
    let mut packer = Packer::default();
    packer.node(Node { kind: 7, operator, flips, ..Node::default() });
    packer.literal(&literal);
    packer
}

fn integer(value: i64) -> Literal<'static> {
    Some(Value::Integer(value))
}

fn like(pattern: &str) -> Packer {
    let mut packer = Packer::default();
    packer.node(Node { kind: 9, ..Node::default() });
    packer.literal(&text(pattern));
    packer
}

fn text(text: &str) -> Literal<'static> {
    Some(Value::Text(text.as_bytes().to_vec().into()))
}

/// Does a container of these four statistics (least, greatest, blanks, rows) stay?
fn keeps(column: u8, packer: &Packer, summary: [Literal<'static>; 4]) -> bool {
    let pruning = rewritten(column, packer, 20).expect("accepted");
    let mut cells = Packer::default();
    for word in words(&pruning.statistics).expect("whole words") {
        cells.literal(&summary[(word << 8 >> 62) as usize]);
    }
    let case = PruneCase { grid: cells.words, cell_pool: cells.pool, ..pruning };
    let pruned = Plain::default().prune(&case.call());
    assert_eq!(pruned.result, 0);
    pruned.flags[0] == 1
}

fn rewritten(column: u8, packer: &Packer, list_limit: u64) -> Option<PruneCase> {
    let case = RewriteCase {
        schema: vec![column],
        predicate: packer.words.clone(),
        pool: packer.pool.clone(),
        list_limit,
        rooms: Rooms::LEAST,
    };
    Plain::default().rewrite(&case.call()).pruning(&case.schema, 1)
}

#[test]
fn equality_by_bounds() {
    let bounds = || [integer(10), integer(20), integer(0), integer(5)];
    for (value, kept) in [(9, false), (10, true), (20, true), (21, false)] {
        assert_eq!(keeps(1, &compared(0, 0, integer(value)), bounds()), kept, "= {value}");
    }
    assert!(keeps(1, &compared(0, 0, None), bounds()));
    let crossed = [integer(9), integer(3), integer(0), integer(5)];
    assert!(!keeps(1, &compared(0, 0, integer(5)), crossed));
}

#[test]
fn unequal_blank_and_order() {
    let unequal = compared(1, 0, integer(7));
    assert!(!keeps(1, &unequal, [integer(7), integer(7), integer(0), integer(5)]));
    assert!(keeps(1, &unequal, [integer(7), integer(8), integer(0), integer(5)]));
    assert!(!keeps(1, &compared(0, 0, integer(3)), [None, None, integer(5), integer(5)]));
    let above = compared(4, 0, integer(5));
    assert!(!keeps(1, &above, [None, integer(5), integer(3), None]));
    assert!(keeps(1, &above, [None, integer(6), integer(3), None]));
    let distinct = compared(6, 0, integer(7));
    assert!(keeps(1, &distinct, [integer(1), integer(2), integer(0), integer(0)]));
}

#[test]
fn flipped() {
    let below = compared(2, 1, integer(5));
    assert!(!keeps(1, &below, [None, integer(-5), None, None]));
    assert!(keeps(1, &below, [None, integer(-4), None, None]));
    assert!(keeps(1, &compared(4, 1, integer(i64::MIN)), [integer(0), integer(0), integer(0), integer(1)]));
}

#[test]
fn like_prefixes() {
    let pattern = like("ab%");
    assert!(keeps(2, &pattern, [text("ac"), text("az"), None, None]));
    assert!(!keeps(2, &pattern, [text("ad"), text("az"), None, None]));
    let before_surrogates = rewritten(2, &like("a\u{D7FF}%"), 20).expect("accepted");
    assert_eq!(before_surrogates.table_pool, "ba\u{D7FF}".as_bytes());
    let last = rewritten(2, &like("\u{10FFFF}%"), 20).expect("accepted");
    assert_eq!(last.table, [1, 0, 0, 0, 0, 0, 0, 0]);
}

#[test]
fn folded_and_listed() {
    let mut packer = Packer::default();
    packer.bare(1, 0);
    packer.bare(0, 0);
    packer.node(Node { kind: 7, ..Node::default() });
    packer.literal(&integer(1));
    let folded = rewritten(1, &packer, 20).expect("accepted");
    assert_eq!((folded.table, folded.statistics.len()), (vec![0; 8], 4 * 8));
    for (count, handled) in [(0, false), (20, true), (21, false)] {
        let mut packer = Packer::default();
        packer.node(Node { kind: 8, count, ..Node::default() });
        (0..count).for_each(|i| packer.literal(&integer(i as i64)));
        let listed = rewritten(1, &packer, 20).expect("accepted");
        assert_eq!(listed.table.len() > 8, handled, "{count} literals");
    }
}
