//! Polygon plans: OFF.

use std::collections::HashMap;
use std::ops::RangeInclusive;

use crate::map::{Crossing, Doorway, Map, Post};
use crate::text::{fault, Fault, Text};

type Face = Vec<usize>;

pub fn read(bytes: &[u8]) -> Result<Map, Fault> {
    let mut text = Text::behind(b"OFF", bytes)?;
    let corner_count = count(&mut text, 3..=1024)?;
    let face_count = count(&mut text, 1..=256)?;
    text.natural()?;
    let corners = (0..corner_count).map(|_| corner(&mut text)).collect::<Result<Vec<Post>, Fault>>()?;
    let faces = (0..face_count).map(|_| face(&mut text, corner_count)).collect::<Result<Vec<Face>, Fault>>()?;
    text.finish()?;
    if let Some(number) = faces.iter().position(|face| !convex(face, &corners)) {
        return fault(19, 3, number);
    }
    let owners = owners(&faces)?;
    Ok(Map { rooms: faces.len(), doorways: doorways(&faces, &corners, &owners) })
}

fn count(text: &mut Text, limits: RangeInclusive<i32>) -> Result<usize, Fault> {
    let number = text.natural()?;
    if !limits.contains(&number.value) {
        return fault(14, 2, number.start);
    }
    Ok(number.value as usize)
}

fn coordinate(text: &mut Text, limit: i32) -> Result<i32, Fault> {
    let number = text.signed()?;
    if number.value.abs() > limit {
        return fault(17, 3, number.start);
    }
    Ok(number.value)
}

fn corner(text: &mut Text) -> Result<Post, Fault> {
    let x = coordinate(text, 10_000)?;
    let y = coordinate(text, 10_000)?;
    coordinate(text, 0)?;
    Ok(Post { x, y })
}

fn face_number(text: &mut Text, limits: RangeInclusive<usize>) -> Result<usize, Fault> {
    let number = text.natural()?;
    if !limits.contains(&(number.value as usize)) {
        return fault(18, 3, number.start);
    }
    Ok(number.value as usize)
}

fn face(text: &mut Text, corner_count: usize) -> Result<Face, Fault> {
    let sides = face_number(text, 3..=16)?;
    (0..sides).map(|_| face_number(text, 0..=corner_count - 1)).collect()
}

fn edges(face: &Face) -> impl Iterator<Item = (usize, usize)> + '_ {
    (0..face.len()).map(|i| (face[i], face[(i + 1) % face.len()]))
}

/// For each edge, the corners at all other places lie strictly left of it.
fn convex(face: &Face, corners: &[Post]) -> bool {
    let sides = face.len();
    (0..sides).all(|i| {
        let next = (i + 1) % sides;
        let (u, v) = (corners[face[i]], corners[face[next]]);
        (0..sides).filter(|&k| k != i && k != next).all(|k| left_of(u, v, corners[face[k]]))
    })
}

fn left_of(u: Post, v: Post, p: Post) -> bool {
    let wide = |a: i32, b: i32| i64::from(a) - i64::from(b);
    wide(v.x, u.x) * wide(p.y, u.y) - wide(v.y, u.y) * wide(p.x, u.x) > 0
}

/// Which face uses an edge, from a corner to a corner.
fn owners(faces: &[Face]) -> Result<HashMap<(usize, usize), usize>, Fault> {
    let mut owners = HashMap::new();
    for (number, face) in faces.iter().enumerate() {
        for edge in edges(face) {
            if owners.insert(edge, number).is_some() {
                return fault(20, 3, number);
            }
        }
    }
    Ok(owners)
}

fn doorways(faces: &[Face], corners: &[Post], owners: &HashMap<(usize, usize), usize>) -> Vec<Doorway> {
    let mut doorways = Vec::new();
    for (near, face) in faces.iter().enumerate() {
        for (u, v) in edges(face) {
            match owners.get(&(v, u)) {
                Some(&far) if far > near => {
                    doorways.push(Doorway { near, far, crossing: Crossing { left: corners[v], right: corners[u] } })
                }
                _ => {}
            }
        }
    }
    doorways
}
