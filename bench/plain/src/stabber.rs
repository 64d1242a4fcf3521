//! Stabbers and their piles. A path that the table asks about is always within the limits.

use crate::map::{Crossing, Post};

#[derive(Clone, Copy, PartialEq, Debug)]
pub struct Line {
    pub a: i32,
    pub b: i32,
    pub c: i32,
}

impl Line {
    fn through(p: Post, q: Post) -> Self {
        Line { a: p.y - q.y, b: q.x - p.x, c: p.x * q.y - q.x * p.y }
    }

    /// At most 600,000,000 for a post within the limits.
    fn value(self, p: Post) -> i32 {
        self.a * p.x + self.b * p.y + self.c
    }

    fn separates(self, path: &[Crossing]) -> bool {
        path.iter().all(|crossing| self.value(crossing.left) >= 0 && self.value(crossing.right) <= 0)
    }
}

pub enum Stabber {
    Exact,
    Wedge,
    Both(Box<Stabber>, Box<Stabber>),
    Memory(Option<Line>, Box<Stabber>),
}

use Stabber::{Both, Exact, Memory, Wedge};

impl Stabber {
    pub fn named(pile: &str) -> Option<Self> {
        if let Some(below) = pile.strip_prefix("memory-") {
            return Some(Memory(None, Box::new(Self::named(below)?)));
        }
        if let Some(back) = pile.strip_prefix("both-wedge-") {
            return Some(Both(Box::new(Wedge), Box::new(Self::named(back)?)));
        }
        match pile {
            "exact" => Some(Exact),
            "wedge" => Some(Wedge),
            _ => None,
        }
    }

    pub fn sharp(&self) -> bool {
        match self {
            Exact => true,
            Wedge => false,
            Both(_, back) => back.sharp(),
            Memory(..) => true,
        }
    }

    pub fn lets_through(&mut self, path: &[Crossing]) -> bool {
        match self {
            Exact => exact_line(path).is_some(),
            Wedge => wedge(path),
            Both(front, back) => front.lets_through(path) && back.lets_through(path),
            Memory(held, below) => remembered_line(held, below, path).is_some(),
        }
    }

    /// A sharp stabber's line.
    pub fn stabbing_line(&mut self, path: &[Crossing]) -> Option<Line> {
        match self {
            Exact => exact_line(path),
            Wedge => unreachable!("wedge has no line"),
            Both(front, back) => front.lets_through(path).then(|| back.stabbing_line(path)).flatten(),
            Memory(held, below) => remembered_line(held, below, path),
        }
    }
}

fn remembered_line(held: &mut Option<Line>, below: &mut Stabber, path: &[Crossing]) -> Option<Line> {
    if held.is_some_and(|line| line.separates(path)) {
        return *held;
    }
    let found = below.stabbing_line(path)?;
    *held = Some(found);
    Some(found)
}

fn posts(path: &[Crossing]) -> impl Iterator<Item = Post> + '_ {
    path.iter().flat_map(|crossing| [crossing.left, crossing.right])
}

/// The first line from one post to another that separates.
fn exact_line(path: &[Crossing]) -> Option<Line> {
    if path.is_empty() {
        return Some(Line { a: 0, b: 1, c: 0 });
    }
    for p in posts(path) {
        for q in posts(path).filter(|&q| q != p) {
            let line = Line::through(p, q);
            if line.separates(path) {
                return Some(line);
            }
        }
    }
    None
}

fn wedge(path: &[Crossing]) -> bool {
    if path.len() < 3 {
        return exact_line(path).is_some();
    }
    path.windows(3).all(|three| exact_line(three).is_some())
}
