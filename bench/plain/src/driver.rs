//! The driver's orders and answers.

use std::io::{BufRead, Write};

use crate::table::{Refusal, Table};
use crate::text::white;

enum Order {
    Fill(usize),
    Shows(usize, usize),
    Shut(usize),
    Open(usize),
    Witness(usize, usize),
    Bitmap,
}

fn number(word: &[u8]) -> Option<usize> {
    if word.len() > 9 || !word.iter().all(u8::is_ascii_digit) {
        return None;
    }
    std::str::from_utf8(word).ok()?.parse().ok()
}

fn order(line: &[u8]) -> Option<Order> {
    let words: Vec<&[u8]> = line.split(|&byte| white(byte)).filter(|word| !word.is_empty()).collect();
    match words[..] {
        [b"fill", a] => Some(Order::Fill(number(a)?)),
        [b"shows", a, b] => Some(Order::Shows(number(a)?, number(b)?)),
        [b"shut", k] => Some(Order::Shut(number(k)?)),
        [b"open", k] => Some(Order::Open(number(k)?)),
        [b"witness", a, b] => Some(Order::Witness(number(a)?, number(b)?)),
        [b"bitmap"] => Some(Order::Bitmap),
        _ => None,
    }
}

fn trimmed(mut line: &[u8]) -> &[u8] {
    while let [first, rest @ ..] = line {
        if !white(*first) {
            break;
        }
        line = rest;
    }
    while let [rest @ .., last] = line {
        if !white(*last) {
            break;
        }
        line = rest;
    }
    line
}

fn yes_or_no(answer: bool) -> String {
    let word = if answer { "yes" } else { "no" };
    word.to_string()
}

fn witness(table: &mut Table, from: usize, to: usize) -> Result<String, Refusal> {
    if !table.sharp() {
        return Ok("not sharp".to_string());
    }
    let (line, doorways) = table.witness(from, to)?;
    let mut said = format!("line {} {} {} doorways", line.a, line.b, line.c);
    for doorway in doorways {
        said += &format!(" {doorway}");
    }
    Ok(said)
}

fn carried_out(table: &mut Table, order: Order) -> Result<String, Refusal> {
    match order {
        Order::Fill(room) => table.fill(room).map(|shown| shown.to_string()),
        Order::Shows(from, to) => table.shows(from, to).map(yes_or_no),
        Order::Shut(doorway) => table.shut(doorway).map(|lost| lost.to_string()),
        Order::Open(doorway) => table.open(doorway).map(|lost| lost.to_string()),
        Order::Witness(from, to) => witness(table, from, to),
        Order::Bitmap => table.bitmap().map(|bytes| bytes.iter().map(|byte| format!("{byte:02x}")).collect()),
    }
}

fn answer(table: &mut Table, line: &[u8]) -> String {
    match order(line) {
        None => "not an order".to_string(),
        Some(order) => carried_out(table, order).unwrap_or_else(|refusal| format!("refused {refusal}")),
    }
}

pub fn run(table: &mut Table, orders: impl BufRead, mut out: impl Write) -> std::io::Result<()> {
    for line in orders.split(b'\n') {
        let line = line?;
        let line = trimmed(&line);
        if !line.is_empty() {
            out.write_all(line)?;
            writeln!(out, ": {}", answer(table, line))?;
        }
    }
    out.flush()
}
