//! Grid plans: plain PBM.

use crate::map::{Crossing, Doorway, Map, Post};
use crate::text::{fault, Fault, Text};

const MOST_ROOMS: i32 = 256;

pub fn read(bytes: &[u8]) -> Result<Map, Fault> {
    let mut text = Text::behind(b"P1", bytes)?;
    let width = text.natural()?;
    if !side(width.value) {
        return fault(14, 2, width.start);
    }
    let height = text.natural()?;
    if !side(height.value) || (width.value / 2) * (height.value / 2) > MOST_ROOMS {
        return fault(14, 2, height.start);
    }
    let (width, height) = (width.value, height.value);
    let mut doorways = Vec::new();
    for y in 0..height {
        for x in 0..width {
            let wall = pixel(&mut text, must(x, y, width, height))?;
            if !wall && x % 2 != y % 2 {
                doorways.push(doorway(x, y, width / 2));
            }
        }
    }
    text.finish()?;
    Ok(Map { rooms: (width / 2 * (height / 2)) as usize, doorways })
}

fn side(pixels: i32) -> bool {
    pixels >= 3 && pixels % 2 == 1
}

/// The colour that a pixel must have, where it has no choice: true is a wall.
fn must(x: i32, y: i32, width: i32, height: i32) -> Option<bool> {
    let border = x == 0 || y == 0 || x == width - 1 || y == height - 1;
    match (x % 2, y % 2) {
        (0, 0) => Some(true),
        (1, 1) => Some(false),
        _ => border.then_some(true),
    }
}

fn pixel(text: &mut Text, must: Option<bool>) -> Result<bool, Fault> {
    let (byte, place) = text.mark()?;
    let wall = match byte {
        b'0' => false,
        b'1' => true,
        _ => return fault(10, 1, place),
    };
    if must.is_some_and(|colour| colour != wall) {
        return fault(16, 3, place);
    }
    Ok(wall)
}

/// The doorway at pixel (x, y), one of x and y even, in a plan that is w rooms wide.
fn doorway(x: i32, y: i32, w: i32) -> Doorway {
    let room = |i: i32, j: i32| (j * w + i) as usize;
    let post = |x: i32, y: i32| Post { x, y };
    if x % 2 == 0 {
        let (i, j) = (x / 2 - 1, y / 2);
        let crossing = Crossing { left: post(4 * i + 4, 4 * j + 3), right: post(4 * i + 4, 4 * j + 1) };
        Doorway { near: room(i, j), far: room(i + 1, j), crossing }
    } else {
        let (i, j) = (x / 2, y / 2 - 1);
        let crossing = Crossing { left: post(4 * i + 1, 4 * j + 4), right: post(4 * i + 3, 4 * j + 4) };
        Doorway { near: room(i, j), far: room(i, j + 1), crossing }
    }
}
