//! Coordinates of a file whose step and corner are not those of the net.

use antenna_tests::random::Random;

/// The file's units in a step, and its point that is 0 0.
#[derive(Clone, Copy)]
pub struct Grid {
    pub step: i64,
    pub corner: (i64, i64),
}

impl Grid {
    pub fn of(random: &mut Random) -> Grid {
        let step = random.range(1, 4) as i64;
        let mut corner = || step * (random.below(200) as i64 - 100);
        Grid {
            step,
            corner: (corner(), corner()),
        }
    }

    /// A point in steps, in the file's coordinates.
    pub fn point(&self, (x, y): (i64, i64)) -> (i64, i64) {
        let Grid { step, corner } = self;
        (x * step + corner.0, y * step + corner.1)
    }

    /// A point of the file in steps.
    pub fn steps(&self, (x, y): (i64, i64)) -> (i64, i64) {
        let Grid { step, corner } = self;
        ((x - corner.0) / step, (y - corner.1) / step)
    }

    /// A text with its points in the file's coordinates.
    pub fn text(&self, text: &str) -> String {
        let (x, y) = self.corner;
        let mut moved = format!("DIEAREA ( {x} {y} ) ( {x} {y} ) ;\n");
        let mut parts = text.split("( ");
        moved += parts.next().unwrap();
        for part in parts {
            let (point, rest) = part.split_once(" )").unwrap();
            let (x, y) = point.split_once(' ').unwrap();
            let (x, y) = self.point((x.parse().unwrap(), y.parse().unwrap()));
            moved += &format!("( {x} {y} ){rest}");
        }
        moved
    }
}
