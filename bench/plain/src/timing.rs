//! Times of the table alone, and the orders with which another driver does the same work.

use std::time::Instant;

use crate::table::Table;

const TURNED_DOORWAYS: usize = 60;

fn fill_all(table: &mut Table) {
    for room in 0..table.map.rooms {
        table.fill(room).expect("a room");
    }
}

/// Sixty doorways spread evenly over the map, or all where there are fewer.
fn turned(table: &Table) -> Vec<usize> {
    let all = table.map.doorways.len();
    let some = all.min(TURNED_DOORWAYS);
    (0..some).map(|k| k * all / some).collect()
}

/// Shuts and opens doorways in turn, and fills what each unfills. Says every order to `note`.
fn rhythm(table: &mut Table, mut note: impl FnMut(&str, usize)) {
    for doorway in turned(table) {
        for (word, shut) in [("shut", true), ("open", false)] {
            note(word, doorway);
            for room in table.turn(doorway, shut).expect("a doorway to turn") {
                note("fill", room);
                table.fill(room).expect("a room");
            }
        }
    }
}

pub fn time_rows(table: &mut Table) {
    let start = Instant::now();
    fill_all(table);
    let seconds = start.elapsed().as_secs_f64();
    println!("all rows: {seconds:.6} seconds, {} questions", table.questions);
}

pub fn time_rhythm(table: &mut Table) {
    fill_all(table);
    let (mut turns, mut fills) = (0, 0);
    table.questions = 0;
    let start = Instant::now();
    rhythm(table, |word, _| if word == "fill" { fills += 1 } else { turns += 1 });
    let seconds = start.elapsed().as_secs_f64();
    let rate = f64::from(turns + fills) / seconds;
    println!(
        "rhythm: {seconds:.6} seconds, {turns} turns, {fills} fills, {rate:.0} orders a second, {} questions",
        table.questions
    );
}

/// The orders that fill all rows, and then those of the rhythm. The questions of the rhythm are told on standard error.
pub fn print_rhythm(table: &mut Table) {
    for room in 0..table.map.rooms {
        println!("fill {room}");
    }
    fill_all(table);
    table.questions = 0;
    rhythm(table, |word, number| println!("{word} {number}"));
    eprintln!("{} questions", table.questions);
}
