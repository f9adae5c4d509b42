//! Obstacles in text form, in the coordinates of the DEF file.

use super::pins::{coordinate, each_line};
use super::route::Point;
use super::scale::Scale;
use crate::words::Refusal;

/// In steps: the corner with the least x and y, and the other.
pub struct Obstacle(Point, Point);

/// The obstacles of the file named, each larger by the clearance on each side, that then hold a point of the grid. They are rounded
/// to it inwards: jumpers stand nowhere else.
pub fn load(name: &str, clearance: i64, scale: &Scale) -> Result<Vec<Obstacle>, Refusal> {
    let mut obstacles = Vec::new();
    each_line(name, |_, words| {
        let ["obstacle", x1, y1, "to", x2, y2] = words else {
            return Err("an obstacle is 'obstacle X1 Y1 to X2 Y2', and has no layer here".into());
        };
        let (x1, x2) = (coordinate(x1)?, coordinate(x2)?);
        let (y1, y2) = (coordinate(y1)?, coordinate(y2)?);
        if x1 > x2 || y1 > y2 {
            return Err("its corners are reversed".into());
        }
        let x = scale.held(x1 - clearance, x2 + clearance, scale.corner.x);
        let y = scale.held(y1 - clearance, y2 + clearance, scale.corner.y);
        if let (Some((x1, x2)), Some((y1, y2))) = (x, y) {
            obstacles.push(Obstacle(Point { x: x1, y: y1 }, Point { x: x2, y: y2 }));
        }
        Ok(())
    })?;
    Ok(obstacles)
}

/// The section of those that hold a point of one of the wires, as pairs of ends.
pub fn section(obstacles: &[Obstacle], wires: &[(Point, Point)]) -> Vec<u8> {
    let mut bytes = Vec::new();
    for Obstacle(low, high) in obstacles {
        let meets = |(a, b): &(Point, Point)| {
            a.x.min(b.x) <= high.x
                && a.x.max(b.x) >= low.x
                && a.y.min(b.y) <= high.y
                && a.y.max(b.y) >= low.y
        };
        if wires.iter().any(meets) {
            for value in [low.x, low.y, high.x, high.y] {
                bytes.extend((value as u16).to_le_bytes());
            }
        }
    }
    bytes
}
