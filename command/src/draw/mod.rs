//! The picture of a net: wires in the colours of their layers, and pieces as the report has them.

mod canvas;
mod labels;
mod legend;
mod marks;
mod obstacles;
mod places;
mod scale;
mod stretches;

use crate::case::Case;
use crate::net::{layered, Net, Obstacle};
use crate::pieces::Piece;
use crate::words::{count, Refusal};
use canvas::Canvas;
use obstacles::Drawn;
use places::Place;
use scale::{common, meets, square, Area, Scale, EDGE};
use stretches::Stretch;

/// An obstacle is this many times as wide as a wire, if it can be.
const SEEN: f64 = 4.5;

/// An obstacle as the picture has it.
struct Shape {
    area: Area,
    layer: u8,
    faint: bool,
}

/// A line of the picture: a wire, from where to where.
type Line = (usize, (f64, f64), (f64, f64));

struct Picture<'a> {
    net: &'a Net,
    stage: u32,
    clearance: u16,
    pieces: &'a [Piece],
    /// The lines of each piece.
    lines: Vec<Vec<Line>>,
    places: Vec<Place>,
    obstacles: Vec<Shape>,
    /// Is the border that the clearance keeps free drawn round one?
    bordered: bool,
    scale: Scale,
    canvas: Canvas,
}

pub fn svg(case: &Case, pieces: &[Piece]) -> Result<String, Refusal> {
    let (net, stage, jumpers) = (&case.net, case.stage, case.list.points());
    let stretches =
        stretches::stretches(net, stage, &jumpers, pieces).map_err(|how| case.contradicts(&how))?;
    let scale = Scale::new(net);
    let marks = marks::areas(net, stage, &scale);
    let places = places::places(case, &scale, &jumpers, &marks);
    let mut lines = vec![Vec::new(); pieces.len()];
    for (piece, line) in drawn(net, &scale, &stretches, &places) {
        lines[piece].push(line);
    }
    let mut picture = Picture {
        net,
        stage,
        clearance: case.clearance,
        pieces,
        lines,
        obstacles: Vec::new(),
        bordered: false,
        canvas: Canvas::new(&scale, marks),
        places,
        scale,
    };
    // what comes later lies above: a gate is hidden by nothing but letters
    picture.draw_obstacles();
    picture.draw_absent();
    picture.draw_bands();
    picture.draw_wires();
    picture.draw_jumpers();
    picture.draw_nodes();
    picture.draw_labels();
    let harmful = pieces.iter().filter(|piece| piece.harmful).count();
    let rules = format!("stage {stage}, limit {}", case.limit);
    let found = format!(
        "{}, {harmful} harmful, {}",
        count(pieces.len(), "piece"),
        count(jumpers.len(), "jumper")
    );
    let summary = match case.clearance {
        0 => vec![format!("{rules}: {found}")],
        // two lines, so that the narrowest picture holds them
        clearance => vec![format!("{rules}, clearance {clearance}:"), found],
    };
    Ok(picture.finish(&summary))
}

/// The stretches as lines, each with its piece; both have the jumpers wire by wire.
fn drawn(net: &Net, scale: &Scale, stretches: &[Stretch], places: &[Place]) -> Vec<(usize, Line)> {
    let mut places = places.iter();
    let mut from = (0.0, 0.0);
    let mut drawn = Vec::new();
    for s in stretches {
        if s.from == 0 {
            from = scale.point(net.at(s.wire, 0.0));
        }
        let to = if s.to == net.length(s.wire) {
            scale.point(net.at(s.wire, s.to as f64))
        } else {
            places.next().expect("a place for each jumper").cut
        };
        if s.from < s.to {
            drawn.push((s.piece, (s.wire, from, to)));
        }
        from = to;
    }
    drawn
}

impl Picture<'_> {
    fn draw_obstacles(&mut self) {
        let seen = SEEN * self.scale.size.wire / self.scale.step;
        let drawn = obstacles::drawn(self.net, self.clearance, seen);
        if self.clearance > 0 {
            self.draw_borders(&drawn);
        }
        for (k, drawn) in drawn.iter().enumerate() {
            if let Some(area) = self.in_view(&drawn.area) {
                self.draw_obstacle(k, area);
            }
        }
    }

    /// What the picture has of a rectangle of the net.
    fn in_view(&self, &[x1, y1, x2, y2]: &Area) -> Option<Area> {
        let page = [
            EDGE / 3.0,
            EDGE / 3.0,
            self.canvas.width - EDGE / 3.0,
            self.canvas.height - EDGE / 3.0,
        ];
        let area = scale::between(self.scale.point((x1, y1)), self.scale.point((x2, y2)));
        meets(&area, &page).then(|| common(&area, &page))
    }

    /// The borders that the clearance keeps free round obstacles that count: one shape, no darker where several lie on each other.
    fn draw_borders(&mut self, drawn: &[Drawn]) {
        let drawn = self.net.obstacles.iter().zip(drawn);
        let counting = drawn.filter(|(obstacle, _)| !self.is_faint(obstacle));
        let borders = counting.filter_map(|(_, drawn)| self.in_view(&drawn.border));
        let outline = |[left, top, right, bottom]: Area| {
            format!("M{left:.1} {top:.1}H{right:.1}V{bottom:.1}H{left:.1}Z")
        };
        let outlines: String = borders.map(outline).collect();
        self.bordered = !outlines.is_empty();
        if self.bordered {
            let border = marks::BORDER;
            self.canvas
                .put(format_args!("<path d=\"{outlines}\" {border}/>"));
        }
    }

    fn is_faint(&self, obstacle: &Obstacle) -> bool {
        obstacles::faint(self.net, self.stage, self.clearance, obstacle)
    }

    fn draw_obstacle(&mut self, k: usize, area: Area) {
        let obstacle = &self.net.obstacles[k];
        let (layer, layered) = (obstacle.layer, layered(self.net.version));
        let faint = self.is_faint(obstacle);
        if layered {
            let title = format!("<title>obstacle {k}: layer {layer}</title>");
            self.canvas.put(format_args!("<g>{title}"));
        }
        self.canvas.rect(area, marks::obstacle(faint));
        if layered {
            self.canvas.put(format_args!("</g>"));
        }
        self.obstacles.push(Shape { area, layer, faint });
    }

    /// Wires that the stage does not have.
    fn draw_absent(&mut self) {
        let wide = self.scale.size.wire;
        for i in (1..self.net.nodes.len()).filter(|&i| !self.net.present(self.stage, i)) {
            let ends = [0, self.net.length(i)].map(|t| self.scale.point(self.net.at(i, t as f64)));
            let style = marks::absent_wire(self.net.layer(i), wide);
            self.canvas.wire(ends[0], ends[1], wide, &style);
        }
    }

    fn draw_bands(&mut self) {
        for k in (0..self.pieces.len()).filter(|&k| self.pieces[k].harmful) {
            let band = marks::band(self.scale.size.band);
            self.canvas.put(format_args!("<g {band}>"));
            for &(_, from, to) in &self.lines[k] {
                self.canvas.line(from, to, "");
            }
            self.canvas.put(format_args!("</g>"));
        }
    }

    fn draw_wires(&mut self) {
        let wide = self.scale.size.wire;
        for (piece, lines) in self.pieces.iter().zip(&self.lines) {
            if lines.is_empty() {
                continue;
            }
            self.canvas.put(format_args!(
                "<g><title>piece {}: weight {}, layers {}{}</title>",
                piece.name(),
                piece.weight,
                piece.layers_joined(", "),
                if piece.harmful { ", harmful" } else { "" }
            ));
            for &(wire, from, to) in lines {
                let style = marks::wire(self.net.layer(wire), wide);
                self.canvas.wire(from, to, wide, &style);
            }
            self.canvas.put(format_args!("</g>"));
        }
    }

    fn draw_jumpers(&mut self) {
        for place in &self.places {
            let (wire, position) = (place.wire, place.position);
            let title = format!("<title>jumper {wire}:{position}</title>");
            self.canvas.put(format_args!("<g>{title}"));
            if place.cross != place.cut {
                let style = format!("stroke=\"{}\" stroke-width=\"1\"", marks::JUMPER);
                self.canvas.line(place.cut, place.cross, &style);
            }
            marks::jumper(&mut self.canvas, place.cross, self.scale.size.jumper);
            self.canvas.put(format_args!("</g>"));
            self.canvas
                .taken
                .push(square(place.cross, self.scale.size.jumper));
        }
    }

    fn draw_nodes(&mut self) {
        let (net, r) = (self.net, self.scale.size.gate);
        for i in (1..net.nodes.len()).filter(|&i| net.is_via(i)) {
            let present = net.present(self.stage, i);
            marks::via(&mut self.canvas, self.scale.node(&net.nodes[i]), r, present);
        }
        for node in &net.nodes {
            let point = self.scale.node(node);
            marks::node(&mut self.canvas, point, r, node.gate, node.source);
        }
    }

    fn finish(mut self, summary: &[String]) -> String {
        let items = legend::items(&self);
        let (width, top) = (self.canvas.width, self.canvas.height);
        let height = legend::draw(&mut self.canvas, top, summary, &items);
        let title = summary.join(" ");
        format!(
            "<svg xmlns=\"http://www.w3.org/2000/svg\" viewBox=\"0 0 {width:.0} {height:.0}\" width=\"{width:.0}\" height=\"{height:.0}\" font-family=\"sans-serif\" font-size=\"{}\">\n<title>{title}</title>\n<rect width=\"100%\" height=\"100%\" fill=\"white\"/>\n{}</svg>\n",
            self.scale.size.letters, self.canvas.out
        )
    }
}
