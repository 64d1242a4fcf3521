//! Rows, shut doorways and the search for walks.

use crate::map::{Crossing, Map};
use crate::stabber::{Line, Stabber};

pub type Refusal = u8;

/// A doorway as one of its two rooms sees it.
#[derive(Clone, Copy)]
struct Exit {
    doorway: usize,
    to: usize,
    crossing: Crossing,
}

pub struct Table {
    pub map: Map,
    stabber: Stabber,
    exits: Vec<Vec<Exit>>,
    shut: Vec<bool>,
    rows: Vec<Option<Vec<bool>>>,
    /// How often the stabber was asked.
    pub questions: u64,
}

/// How far a search has come: the rooms entered, the doorways and the crossings of the walk.
struct Walk {
    entered: Vec<bool>,
    doorways: Vec<usize>,
    path: Vec<Crossing>,
}

impl Walk {
    fn from(start: usize, rooms: usize) -> Self {
        let mut entered = vec![false; rooms];
        entered[start] = true;
        Walk { entered, doorways: Vec::new(), path: Vec::new() }
    }

    fn enter(&mut self, exit: Exit) {
        self.entered[exit.to] = true;
        self.doorways.push(exit.doorway);
        self.path.push(exit.crossing);
    }

    fn leave(&mut self, exit: Exit) {
        self.entered[exit.to] = false;
        self.doorways.pop();
        self.path.pop();
    }
}

fn exits(map: &Map) -> Vec<Vec<Exit>> {
    let mut exits: Vec<Vec<Exit>> = (0..map.rooms).map(|_| Vec::new()).collect();
    for (doorway, d) in map.doorways.iter().enumerate() {
        exits[d.near].push(Exit { doorway, to: d.far, crossing: d.crossing });
        exits[d.far].push(Exit { doorway, to: d.near, crossing: d.crossing.back() });
    }
    exits
}

impl Table {
    pub fn new(map: Map, stabber: Stabber) -> Self {
        let exits = exits(&map);
        let shut = vec![false; map.doorways.len()];
        let rows = vec![None; map.rooms];
        Table { map, stabber, exits, shut, rows, questions: 0 }
    }

    pub fn sharp(&self) -> bool {
        self.stabber.sharp()
    }

    fn known(&self, room: usize) -> Result<(), Refusal> {
        (room < self.map.rooms).then_some(()).ok_or(1)
    }

    pub fn fill(&mut self, room: usize) -> Result<usize, Refusal> {
        self.known(room)?;
        let mut row = vec![false; self.map.rooms];
        row[room] = true;
        let mut walk = Walk::from(room, self.map.rooms);
        self.fill_from(room, &mut walk, &mut row);
        let shown = row.iter().filter(|&&bit| bit).count();
        self.rows[room] = Some(row);
        Ok(shown)
    }

    fn fill_from(&mut self, room: usize, walk: &mut Walk, row: &mut [bool]) {
        for k in 0..self.exits[room].len() {
            let exit = self.exits[room][k];
            if self.shut[exit.doorway] || walk.entered[exit.to] {
                continue;
            }
            walk.enter(exit);
            self.questions += 1;
            if self.stabber.lets_through(&walk.path) {
                row[exit.to] = true;
                self.fill_from(exit.to, walk, row);
            }
            walk.leave(exit);
        }
    }

    pub fn shows(&self, from: usize, to: usize) -> Result<bool, Refusal> {
        self.known(from)?;
        self.known(to)?;
        let row = self.rows[from].as_ref().ok_or(2)?;
        Ok(row[to])
    }

    pub fn shut(&mut self, doorway: usize) -> Result<usize, Refusal> {
        Ok(self.turn(doorway, true)?.len())
    }

    pub fn open(&mut self, doorway: usize) -> Result<usize, Refusal> {
        Ok(self.turn(doorway, false)?.len())
    }

    /// Shuts or opens a doorway, and says which rows are filled no more.
    pub fn turn(&mut self, doorway: usize, shut: bool) -> Result<Vec<usize>, Refusal> {
        let d = self.map.doorways.get(doorway).ok_or(3)?;
        if self.shut[doorway] == shut {
            return Err(4);
        }
        self.shut[doorway] = shut;
        let mut lost = Vec::new();
        for (room, row) in self.rows.iter_mut().enumerate() {
            if row.as_ref().is_some_and(|bits| bits[d.near] || bits[d.far]) {
                *row = None;
                lost.push(room);
            }
        }
        Ok(lost)
    }

    /// The first open walk from a room to another that is let through, and its line.
    pub fn witness(&mut self, from: usize, to: usize) -> Result<(Line, Vec<usize>), Refusal> {
        self.known(from)?;
        self.known(to)?;
        if from == to {
            return Err(5);
        }
        let mut walk = Walk::from(from, self.map.rooms);
        let line = self.line_from(from, to, &mut walk).ok_or(7)?;
        Ok((line, walk.doorways))
    }

    /// Leaves the walk as it is where a line was found.
    fn line_from(&mut self, room: usize, goal: usize, walk: &mut Walk) -> Option<Line> {
        for k in 0..self.exits[room].len() {
            let exit = self.exits[room][k];
            if self.shut[exit.doorway] || walk.entered[exit.to] {
                continue;
            }
            walk.enter(exit);
            self.questions += 1;
            let found = match self.stabber.stabbing_line(&walk.path) {
                Some(line) if exit.to == goal => Some(line),
                Some(_) => self.line_from(exit.to, goal, walk),
                None => None,
            };
            if found.is_some() {
                return found;
            }
            walk.leave(exit);
        }
        None
    }

    /// All rows as a raw PBM picture.
    pub fn bitmap(&self) -> Result<Vec<u8>, Refusal> {
        let rooms = self.map.rooms;
        let mut bytes = format!("P4\n{rooms} {rooms}\n").into_bytes();
        for row in &self.rows {
            let row = row.as_ref().ok_or(2)?;
            bytes.extend(row.chunks(8).map(packed));
        }
        Ok(bytes)
    }
}

/// Up to eight bits as a byte, the first at the top.
fn packed(bits: &[bool]) -> u8 {
    bits.iter().enumerate().map(|(place, &bit)| u8::from(bit) << (7 - place)).sum()
}
