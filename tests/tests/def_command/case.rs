//! A file of random nets with random pins and obstacles, and what the command makes of it.

use super::grid::Grid;
use super::meets::{pins, Pin};
use super::metal::Metal;
use super::random::{metal_of, net, text_of};
use super::{antenna, folder_of, Ran};
use antenna_tests::random::Random;
use std::fs;
use std::path::PathBuf;

/// Two corners, in the coordinates of the file.
type Obstacle = [i64; 4];

pub struct Case {
    pub grid: Grid,
    pub text: String,
    pub nets: Vec<(Metal, Vec<Pin>)>,
    pub obstacles: Vec<Obstacle>,
    clearance: i64,
    /// Where the net files are.
    pub folder: PathBuf,
    pub ran: Ran,
}

impl Case {
    /// The folder has this name; without a clearance the command is given none.
    pub fn run(random: &mut Random, folder: &str, clearance: Option<i64>) -> Case {
        let grid = Grid::of(random);
        let paths: Vec<Vec<String>> = (0..100).map(|_| net(random)).collect();
        let text = grid.text(&text_of(&paths));
        let with_pins = |paths: &Vec<String>| {
            let metal = metal_of(paths);
            let pins = pins(random, &metal);
            (metal, pins)
        };
        let nets: Vec<(Metal, Vec<Pin>)> = paths.iter().map(with_pins).collect();
        let obstacles: Vec<Obstacle> = (0..20).map(|_| obstacle(random, grid)).collect();
        let folder = folder_of(folder);
        let stored = |name: &str, text: String| {
            fs::create_dir_all(&folder).unwrap();
            fs::write(folder.join(name), text).unwrap();
            format!("--{name}={}", folder.join(name).display())
        };
        let mut words = vec![
            stored("pins", pin_lines(&nets, grid)),
            stored("obstacles", obstacle_lines(&obstacles)),
            format!("--output={}", folder.display()),
            format!("--grid={}", grid.step),
            "-".into(),
        ];
        words.extend(clearance.map(|clearance| format!("--clearance={clearance}")));
        let words: Vec<&str> = words.iter().map(String::as_str).collect();
        let ran = antenna(&words, text.as_bytes());
        Case {
            grid,
            text,
            nets,
            obstacles,
            clearance: clearance.unwrap_or(0),
            folder,
            ran,
        }
    }

    /// Is a point, which is in steps, at most the clearance outside an obstacle in x, and at most that far outside it in y?
    pub fn barred(&self, x: u16, y: u16) -> bool {
        let (x, y) = self.grid.point((x.into(), y.into()));
        let near = |low: i64, high: i64, at: i64| (low - at).max(at - high) <= self.clearance;
        let mut obstacles = self.obstacles.iter();
        obstacles.any(|&[x1, y1, x2, y2]| near(x1, x2, x) && near(y1, y2, y))
    }
}

/// Its corners are in and between steps; some lie far outside.
fn obstacle(random: &mut Random, grid: Grid) -> Obstacle {
    let step = grid.step as u64;
    let mut below = |end: u64| random.below(end) as i64;
    let (x, y) = grid.point((below(40) - 10, below(40) - 10));
    let (x1, y1) = (x + below(step), y + below(step));
    let (x2, y2) = (x1 + below(4 * step), y1 + below(4 * step));
    match below(12) {
        0 => [x1 - 1_000_000, y1, x2, y2],
        1 => [x1, y1, x2, y2 + 1_000_000],
        _ => [x1, y1, x2, y2],
    }
}

fn obstacle_lines(obstacles: &[Obstacle]) -> String {
    let line = |[x1, y1, x2, y2]: &Obstacle| format!("obstacle {x1} {y1} to {x2} {y2}\n");
    obstacles.iter().map(line).collect()
}

/// Four lines for each net.
fn pin_lines(nets: &[(Metal, Vec<Pin>)], grid: Grid) -> String {
    let mut lines = String::new();
    for (k, (_, pins)) in nets.iter().enumerate() {
        for pin in pins {
            let (layer, x, y) = pin.at;
            let (x, y) = grid.point((x, y));
            let flags = ["", "gate", "source", "gate source"][pin.flags as usize];
            lines += &format!("pin n{k} at {x} {y} metal{layer} {flags}\n");
        }
    }
    lines
}
