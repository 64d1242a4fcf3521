//! A second implementation of the driver, written from docs/RULES.md alone and as plainly as can be, to compare with.

mod driver;
mod grid;
mod map;
mod polygon;
mod stabber;
mod table;
mod text;
mod timing;

use std::io::{BufWriter, Write};
use std::process::ExitCode;

use stabber::Stabber;
use table::Table;

const USAGE: &str = "usage: plain [--rows | --rhythm | --rhythm-orders] PLAN PILE";

const PILES: [&str; 7] = [
    "exact",
    "wedge",
    "memory-exact",
    "both-wedge-exact",
    "memory-both-wedge-exact",
    "both-wedge-memory-exact",
    "memory-memory-exact",
];

fn drive(table: &mut Table) -> std::io::Result<()> {
    let mut out = BufWriter::new(std::io::stdout().lock());
    writeln!(out, "plan: {} rooms, {} doorways", table.map.rooms, table.map.doorways.len())?;
    driver::run(table, std::io::stdin().lock(), out)
}

fn start(mode: &str, plan: &[u8], stabber: Stabber) -> ExitCode {
    let read = if plan.starts_with(b"OFF") { polygon::read } else { grid::read };
    let map = match read(plan) {
        Ok(map) => map,
        Err(fault) => {
            println!("refused {} layer {} at {}", fault.number, fault.layer, fault.place);
            return ExitCode::FAILURE;
        }
    };
    let mut table = Table::new(map, stabber);
    match mode {
        "--rows" => timing::time_rows(&mut table),
        "--rhythm" => timing::time_rhythm(&mut table),
        "--rhythm-orders" => timing::print_rhythm(&mut table),
        _ => return drive(&mut table).map_or(ExitCode::FAILURE, |()| ExitCode::SUCCESS),
    }
    ExitCode::SUCCESS
}

fn main() -> ExitCode {
    let mut words: Vec<String> = std::env::args().skip(1).collect();
    let mode = if words.first().is_some_and(|word| word.starts_with("--")) { words.remove(0) } else { String::new() };
    if let [plan, pile] = &words[..] {
        let stabber = if PILES.contains(&pile.as_str()) { Stabber::named(pile) } else { None };
        if let (Ok(bytes), Some(stabber)) = (std::fs::read(plan), stabber) {
            return start(&mode, &bytes, stabber);
        }
    }
    eprintln!("{USAGE}");
    ExitCode::FAILURE
}
