//! Rooms, doorways and crossings.

#[derive(Clone, Copy, PartialEq)]
pub struct Post {
    pub x: i32,
    pub y: i32,
}

#[derive(Clone, Copy)]
pub struct Crossing {
    pub left: Post,
    pub right: Post,
}

impl Crossing {
    pub fn back(self) -> Self {
        Crossing { left: self.right, right: self.left }
    }
}

pub struct Doorway {
    pub near: usize,
    pub far: usize,
    pub crossing: Crossing,
}

pub struct Map {
    pub rooms: usize,
    pub doorways: Vec<Doorway>,
}
