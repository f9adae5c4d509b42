//! Coordinates of the file to steps: moved to begin at 0, and divided by the grid.

use super::file::File;
use super::place::Reason;
use super::route::{Point, Route};

const MOST: i64 = 65535;

#[derive(Clone, Copy)]
pub struct Scale {
    /// The point of the file that becomes 0 0: both are multiples of the grid.
    pub corner: Point,
    pub grid: i64,
}

impl Scale {
    /// The corner is that of the die area, or 0 0 if the file has none; a point of a net that lies lower moves it.
    pub fn of(file: &File, grid: i64) -> Scale {
        let mut corner = file.die.unwrap_or(Point { x: 0, y: 0 });
        for route in file.nets.iter().filter_map(|net| net.route.as_ref().ok()) {
            for spot in route.spots() {
                corner.x = corner.x.min(spot.point.x);
                corner.y = corner.y.min(spot.point.y);
            }
        }
        let down = |value: i64| value.div_euclid(grid) * grid;
        Scale {
            corner: Point {
                x: down(corner.x),
                y: down(corner.y),
            },
            grid,
        }
    }

    fn steps(&self, name: char, value: i64, corner: i64) -> Result<i64, String> {
        let (grid, from) = (self.grid, value - corner);
        if from % grid != 0 {
            return Err(format!("{name} {value} is no multiple of the grid, {grid}"));
        }
        let steps = from / grid;
        if !(0..=MOST).contains(&steps) {
            return Err(format!(
                "{name} {value} is {steps} steps from {corner}, and 0 to {MOST} can be written: try --grid"
            ));
        }
        Ok(steps)
    }

    pub fn point(&self, point: Point) -> Result<Point, String> {
        Ok(Point {
            x: self.steps('x', point.x, self.corner.x)?,
            y: self.steps('y', point.y, self.corner.y)?,
        })
    }

    /// The route in steps.
    pub fn route(&self, mut route: Route) -> Result<Route, Reason> {
        for spot in route.paths.iter_mut().flat_map(|path| &mut path.spots) {
            let point = self.point(spot.point);
            spot.point = point.map_err(|message| Reason::text(spot.at, message))?;
        }
        for via in &mut route.vias {
            let point = self.point(via.point);
            via.point = point.map_err(|message| Reason::text(via.at, message))?;
        }
        Ok(route)
    }

    /// The steps that an obstacle from low to high holds, on one axis; none if it lies between them or outside.
    pub fn held(&self, low: i64, high: i64, corner: i64) -> Option<(i64, i64)> {
        let (grid, up) = (self.grid, self.grid - 1);
        let first = (low - corner + up).div_euclid(grid).max(0);
        let last = (high - corner).div_euclid(grid).min(MOST);
        (first <= last).then_some((first, last))
    }
}
