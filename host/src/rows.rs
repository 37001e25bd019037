//! Files of rows in blocks: values apart by commas, a header with names and types, a line of dashes after each block.

use crate::block::Block;
use crate::plan::{Answer, Plan};
use crate::schema::Schema;
use crate::value::{ColumnType, Value};

/// The rows of a file, block by block.
#[derive(Clone, Debug, PartialEq, Eq)]
pub struct Rows {
    /// The columns that the header names.
    pub schema: Schema,
    /// The blocks; a row has a value for each column.
    pub blocks: Vec<Vec<Vec<Value>>>,
}

/// What is wrong with a file: the line, counted from 1, and a sentence.
pub type BadLine = (usize, String);

impl Rows {
    /// Reads a file's text. Lines that begin with # are left out; an empty field is a blank, `""` an empty text.
    ///
    /// ```
    /// use filughjosa::rows::Rows;
    /// let rows = Rows::read("price:integer,item:text\n3,plum\n,\n---\n4,\"a, b\"\n").unwrap();
    /// assert_eq!(rows.blocks.len(), 2);
    /// assert_eq!(Rows::read("price:integer\nplum\n").unwrap_err().0, 2);
    /// ```
    pub fn read(text: &str) -> Result<Rows, BadLine> {
        let lines = text.lines().enumerate().map(|(at, line)| (at + 1, line));
        let mut lines = lines.filter(|(_, line)| !line.starts_with('#') && !line.trim().is_empty());
        let (at, header) = lines.next().ok_or((1, "there is no header".to_string()))?;
        let schema = read_header(header).map_err(|why| (at, why))?;
        let mut blocks = vec![Vec::new()];
        for (at, line) in lines {
            if line.bytes().all(|byte| byte == b'-') {
                blocks.push(Vec::new());
            } else {
                let row = read_row(line, &schema).map_err(|why| (at, why))?;
                blocks.last_mut().expect("there is a block").push(row);
            }
        }
        // Dashes behind the last block begin no further one.
        if blocks.last().is_some_and(Vec::is_empty) {
            blocks.pop();
        }
        Ok(Rows { schema, blocks })
    }

    /// The summary of each block, with answers to the plan's guarantees.
    pub fn summaries(&self, plan: &Plan) -> Vec<Block> {
        let summary = |rows: &Vec<Vec<Value>>| {
            let answers = plan.guarantees().iter().map(|guarantee| {
                let column = self.schema.column(&guarantee.column).map_or(0, usize::from);
                Answer::of(guarantee, rows.iter().map(|row| &row[column]))
            });
            Block::of_rows(&self.schema, rows).answers(answers)
        };
        self.blocks.iter().map(summary).collect()
    }
}

fn read_header(line: &str) -> Result<Schema, String> {
    let mut columns = Vec::new();
    for (field, _) in fields(line)? {
        let (name, kind) = field.split_once(':').ok_or(format!("{field:?} is not NAME:TYPE"))?;
        let kind = match kind.trim() {
            "integer" => ColumnType::Integer,
            "text" => ColumnType::Text,
            "truth" => ColumnType::Truth,
            other => return Err(format!("no type is called {other:?}; there are integer, text, truth")),
        };
        columns.push((name.trim().to_string(), kind));
    }
    Schema::new(columns).map_err(|error| error.to_string())
}

fn read_row(line: &str, schema: &Schema) -> Result<Vec<Value>, String> {
    let fields = fields(line)?;
    let width = schema.columns().count();
    if fields.len() != width {
        return Err(format!("the row has {} fields, not {width}", fields.len()));
    }
    let value = |((field, quoted), (name, kind)): ((String, bool), (&str, ColumnType))| {
        let plain = field.trim();
        match kind {
            _ if !quoted && plain.is_empty() => Ok(Value::Null),
            ColumnType::Text if quoted => Ok(field.into()),
            ColumnType::Text => Ok(plain.into()),
            ColumnType::Integer => {
                plain.parse().map(Value::Integer).map_err(|_| format!("{name}: {plain:?} is no integer"))
            }
            ColumnType::Truth => {
                plain.parse().map(Value::Truth).map_err(|_| format!("{name}: {plain:?} is neither true nor false"))
            }
        }
    };
    fields.into_iter().zip(schema.columns()).map(value).collect()
}

/// The fields of a line, each with whether it was quoted. A doubled quote inside quotes stands for one.
fn fields(line: &str) -> Result<Vec<(String, bool)>, String> {
    let mut fields = vec![(String::new(), false)];
    let mut inside = false;
    let mut chars = line.chars().peekable();
    while let Some(c) = chars.next() {
        let (field, quoted) = fields.last_mut().expect("there is a field");
        match c {
            '"' if inside && chars.next_if_eq(&'"').is_some() => field.push('"'),
            '"' if inside => inside = false,
            '"' if field.is_empty() && !*quoted => (inside, *quoted) = (true, true),
            ',' if !inside => fields.push((String::new(), false)),
            _ if *quoted && !inside => return Err("there is more behind a closing quote".into()),
            _ => field.push(c),
        }
    }
    if inside { Err("a closing quote is missing".into()) } else { Ok(fields) }
}
