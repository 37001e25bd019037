//! Judges the blocks of a file by a formula: which must be read, and which can be skipped.
//! Use: skip [FORMULA [FILE]]. Exit status 0 where the blocks were judged, 1 where the formula or the file is bad, 2 for bad use.

use filughjosa::rows::Rows;
use filughjosa::{Asked, Plan, formula};
use std::process::ExitCode;
use std::{env, fs};

const FORMULA: &str = "price > 40 AND item LIKE 'b%'";
const FILE: &str = concat!(env!("CARGO_MANIFEST_DIR"), "/data/orders.csv");

fn main() -> ExitCode {
    let arguments: Vec<String> = env::args().skip(1).collect();
    let judged = match arguments.as_slice() {
        [flag] if flag == "--help" || flag == "-h" => {
            println!("{}", usage());
            return ExitCode::SUCCESS;
        }
        [] => skip(FORMULA, FILE),
        [formula] => skip(formula, FILE),
        [formula, file] => skip(formula, file),
        _ => {
            eprintln!("{}", usage());
            return ExitCode::from(2);
        }
    };
    match judged {
        Ok(report) => {
            print!("{report}");
            ExitCode::SUCCESS
        }
        Err(why) => {
            eprintln!("{why}");
            ExitCode::from(1)
        }
    }
}

fn usage() -> String {
    format!(
        "use: skip [FORMULA [FILE]]\n\n\
         Says which blocks of FILE a FORMULA must read, by the blocks' summaries.\n\
         With none: {FORMULA:?} on the orders that come with the package.\n\
         Formulas: = <> < <= > >= IN LIKE BETWEEN IS NULL IS DISTINCT FROM, AND OR NOT, brackets, 'text', TRUE, FALSE, NULL."
    )
}

/// Judges a file's blocks; the report, or what is wrong.
fn skip(text: &str, file: &str) -> Result<String, String> {
    let content = fs::read_to_string(file).map_err(|e| format!("{file}: {e}"))?;
    let rows = Rows::read(&content).map_err(|(line, why)| format!("{file}, line {line}: {why}"))?;
    let predicate = formula::read(text, &rows.schema).map_err(|mistake| format!("the formula is wrong {mistake}"))?;
    let plan = Plan::new(&rows.schema, &predicate).map_err(|e| format!("the formula is not taken: {e}"))?;
    let kept = plan.keep(&rows.summaries(&plan)).map_err(|e| e.to_string())?;
    Ok(report(text, &rows, &plan, &kept))
}

fn report(text: &str, rows: &Rows, plan: &Plan, kept: &[bool]) -> String {
    let asked: Vec<String> = plan.asked().iter().map(Asked::to_string).collect();
    let asked = if asked.is_empty() { "nothing".to_string() } else { asked.join(", ") };
    let mut lines = vec![format!("formula  {text}"), format!("reads    {asked}"), String::new()];
    lines.push("block  rows  verdict".into());
    let mut skipped = (0, 0);
    for (at, (block, keep)) in rows.blocks.iter().zip(kept).enumerate() {
        lines.push(format!("{at:5}  {:4}  {}", block.len(), if *keep { "keep" } else { "drop" }));
        if !keep {
            skipped = (skipped.0 + 1, skipped.1 + block.len());
        }
    }
    let all: usize = rows.blocks.iter().map(Vec::len).sum();
    lines.push(String::new());
    lines.push(format!("skipped {} of {} blocks, {} of {all} rows", skipped.0, kept.len(), skipped.1));
    lines.join("\n") + "\n"
}
