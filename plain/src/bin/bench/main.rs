//! Benchmarks: the proved library against ordinary Rust, as Markdown tables.
//!
//! - `bench`: every table.
//! - `bench list`: the names of the single variants.
//! - `bench run NAME TIMES`: one variant so many times, for counting instructions. 0 times
//!   counts the making of the inputs, to be taken off.

mod grid_loop;
mod packed;
mod shapes;
mod tables;
mod timing;
mod variants;

fn main() {
    let arguments: Vec<String> = std::env::args().skip(1).collect();
    let arguments: Vec<&str> = arguments.iter().map(String::as_str).collect();
    match arguments[..] {
        [] => tables::all(),
        ["list"] => variants::names().iter().for_each(|name| println!("{name}")),
        ["run", name, times] => variants::run(name, times.parse().expect("a number")),
        _ => {
            eprintln!("bench | bench list | bench run NAME TIMES");
            std::process::exit(2);
        }
    }
}
