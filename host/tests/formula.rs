//! Formulas: what each reads as, and where a mistake is said to be.

use filughjosa::{Column, ColumnType, Operator, Predicate, Schema, Value, col, formula};

fn shop() -> Schema {
    Schema::new([
        ("price", ColumnType::Integer),
        ("item", ColumnType::Text),
        ("sold", ColumnType::Truth),
        ("in stock", ColumnType::Truth),
    ])
    .unwrap()
}

fn read(text: &str) -> Predicate {
    formula::read(text, &shop()).unwrap_or_else(|mistake| panic!("{mistake}"))
}

/// A comparison with the literal on the left.
fn turned(operator: Operator, literal: impl Into<Value>, column: Column) -> Predicate {
    Predicate::Compare { column, operator, literal: literal.into(), literal_first: true }
}

#[test]
fn tests_of_a_column() {
    assert_eq!(read("price = 5"), col("price").eq(5));
    assert_eq!(read("price<>5"), col("price").ne(5));
    assert_eq!(read("price != -5"), col("price").ne(-5));
    assert_eq!(read("price < - -5"), col("price").lt(5));
    assert_eq!(read("price <= 5"), col("price").le(5));
    assert_eq!(read("price > 5"), col("price").gt(5));
    assert_eq!(read("price >= -9223372036854775808"), col("price").ge(i64::MIN));
    assert_eq!(read("- price < 5"), (-col("price")).lt(5));
    assert_eq!(read("--price IN (5)"), (-(-col("price"))).is_in([5]));
    assert_eq!(read("item IN ()"), col("item").is_in::<Value>([]));
    assert_eq!(read("item NOT IN ('a', NULL)"), col("item").not_in([Value::from("a"), Value::Null]));
    assert_eq!(read("item LIKE '50\\%%'"), col("item").like("50\\%%"));
    assert_eq!(read("item not like NULL"), col("item").not_like(Value::Null));
    assert_eq!(read("item = 'it''s'"), col("item").eq("it's"));
    assert_eq!(read("price IS NULL"), col("price").is_null());
    assert_eq!(read("price is not null"), col("price").is_not_null());
    assert_eq!(read("price IS DISTINCT FROM 5"), col("price").distinct_from(5));
    assert_eq!(read("price IS NOT DISTINCT FROM NULL"), col("price").not_distinct_from(Value::Null));
    assert_eq!(read("price BETWEEN 1 AND 2"), col("price").ge(1) & col("price").le(2));
    assert_eq!(read("price NOT BETWEEN 1 AND 2"), !(col("price").ge(1) & col("price").le(2)));
    assert_eq!(read("sold"), col("sold").truth());
    assert_eq!(read("\"in stock\" = TRUE"), col("in stock").eq(true));
}

#[test]
fn the_value_may_stand_first() {
    assert_eq!(read("5 < price"), turned(Operator::Less, 5, col("price")));
    assert_eq!(read("-5 = -price"), turned(Operator::Equal, -5, -col("price")));
    assert_eq!(read("NULL IS DISTINCT FROM item"), turned(Operator::DistinctFrom, Value::Null, col("item")));
    assert_eq!(read("TRUE IS NOT DISTINCT FROM sold"), turned(Operator::NotDistinctFrom, true, col("sold")));
}

#[test]
fn and_binds_closer_than_or_and_not_closest() {
    let [a, b, c] = [1, 2, 3].map(|n| col("price").eq(n));
    assert_eq!(read("price=1 OR price=2 AND price=3"), a.clone() | (b.clone() & c.clone()));
    assert_eq!(read("(price=1 OR price=2) AND price=3"), (a.clone() | b.clone()) & c.clone());
    assert_eq!(read("NOT price=1 AND price=2"), !a.clone() & b.clone());
    assert_eq!(read("NOT (price=1 AND price=2)"), !(a.clone() & b.clone()));
    assert_eq!(read("price=1 AND price=2 AND price=3"), (a & b) & c);
    assert_eq!(read("TRUE OR NULL"), Predicate::Constant(Some(true)) | Predicate::Constant(None));
}

/// The part of a formula that a mistake points at, and its message.
fn mistake(text: &str) -> (String, String) {
    let mistake = formula::read(text, &shop()).expect_err(text);
    // Every mistake can be shown.
    assert!(mistake.to_string().contains('^'), "{mistake}");
    (text[mistake.at].to_string(), mistake.message)
}

#[test]
fn mistakes_point_at_their_place() {
    for (text, place, word) in [
        ("price > 'b'", "'b'", "price is integer, this is text"),
        ("'b' > price", "'b'", "price is integer, this is text"),
        ("item IN ('a', 5)", "5", "item is text"),
        ("prize = 3", "prize", "no column prize"),
        ("price >", "", "expected a column or a value"),
        ("price = 3 AND", "", "expected a column or a value"),
        ("price = 3 item = 'a'", "item", "AND, OR or the end"),
        ("(price = 3", "", "expected )"),
        ("price = 3)", ")", "AND, OR or the end"),
        ("price", "", "expected a comparison"),
        ("price AND sold", "AND", "expected a comparison"),
        ("price = item", "item", "expected a value"),
        ("5 = 5", "5", "two values"),
        ("5 AND sold", "AND", "expected a comparison"),
        ("price NOT 5", "5", "IN, LIKE or BETWEEN"),
        ("price IS 5", "5", "NULL or DISTINCT FROM"),
        ("price IN (1 2)", "2", "expected , or )"),
        ("price IN (1,)", ")", "expected a column or a value"),
        ("price BETWEEN 1 OR 2", "OR", "expected AND"),
        ("price LIKE 'a'", "price", "LIKE is for text"),
        ("item LIKE 'a' ESCAPE 'b'", "ESCAPE", "backslash"),
        ("-item = 'a'", "item", "minus is for integers"),
        ("price = -'a'", "-'a'", "minus is for integers"),
        ("-price IS NULL", "-price IS NULL", "without a minus"),
        ("price = 9223372036854775808", "9223372036854775808", "over 64 bits"),
        ("price = 99999999999999999999", "99999999999999999999", "over 64 bits"),
        ("price = 5a", "5a", "digits only"),
        ("item = 'a", "'a", "closing '"),
        ("item = 'ä' ; ", ";", "no meaning"),
        ("", "", "expected a column or a value"),
    ] {
        let (at, message) = mistake(text);
        assert_eq!(at, place, "{text}");
        assert!(message.contains(word), "{text}: {message}");
    }
}

#[test]
fn deep_nesting_is_a_mistake_and_no_crash() {
    let deep = "(".repeat(100_000) + "sold" + &")".repeat(100_000);
    assert!(mistake(&deep).1.contains("nested too deep"));
    assert!(mistake(&("NOT ".repeat(100_000) + "sold")).1.contains("nested too deep"));
}

#[test]
fn a_mistake_is_shown_below_its_line() {
    let shown = formula::read("sold AND\n  price = 'b'", &shop()).unwrap_err().to_string();
    assert_eq!(shown, "at character 20: price is integer, this is text\n    price = 'b'\n            ^^^");
}

#[test]
fn what_is_written_is_read_back() {
    let columns = [("price", ColumnType::Integer), ("say \"in\"", ColumnType::Text), ("LIKE", ColumnType::Truth)];
    let schema = Schema::new(columns).unwrap();
    let [price, text, truth] = columns.map(|(name, _)| col(name));
    let leaves = [
        (-(-price.clone())).lt(i64::MIN),
        turned(Operator::GreaterOrEqual, -3, -price.clone()),
        turned(Operator::NotDistinctFrom, Value::Null, text.clone()),
        price.clone().not_in([Value::Null, 0.into(), (-1).into()]),
        price.is_in::<Value>([]),
        text.clone().like("it's 50\\%_"),
        text.clone().not_like(Value::Null),
        text.clone().distinct_from(""),
        text.is_not_null(),
        truth.clone().eq(false),
        truth.clone().is_null(),
        truth.truth(),
        Predicate::Constant(None),
        Predicate::Constant(Some(true)),
    ];
    let mut all = leaves.to_vec();
    for pair in leaves.windows(2) {
        let [a, b] = [pair[0].clone(), pair[1].clone()];
        all.push((a.clone() & !b.clone()) & (b.clone() | a.clone()));
        all.push(!(!a.clone() | (b.clone() | a)) & !!b);
    }
    for predicate in all {
        let text = predicate.to_string();
        assert_eq!(formula::read(&text, &schema), Ok(predicate), "{text}");
    }
}
