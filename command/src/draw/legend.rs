//! The legend: what the picture has, and nothing else.

use super::canvas::Canvas;
use super::scale::{Area, EDGE};
use super::{marks, Picture};
use crate::net::{layered, Node};

/// What stands for itself in the legend.
pub enum Item {
    Gate,
    Source,
    Node,
    Via,
    AbsentVia,
    Jumper,
    LabelledJumper,
    Harm,
    Obstacle,
    LayeredObstacle,
    FaintObstacle,
    Border,
    Factor,
    Layer(u8),
    AbsentLayer(u8),
}

impl Item {
    fn text(&self) -> String {
        match self {
            Item::Gate => "gate".into(),
            Item::Source => "source".into(),
            Item::Node => "node".into(),
            Item::Via => "via".into(),
            Item::AbsentVia => "via not made yet".into(),
            Item::Jumper => "jumper".into(),
            Item::LabelledJumper => "jumper, wire:position".into(),
            Item::Harm => "harmful, with its weight".into(),
            Item::Obstacle => "obstacle".into(),
            Item::LayeredObstacle => "obstacle, with its layer".into(),
            Item::FaintObstacle => "obstacle that does not count at this stage".into(),
            Item::Border => "clearance round an obstacle".into(),
            Item::Factor => "factor over 1".into(),
            Item::Layer(layer) => format!("layer {layer}"),
            Item::AbsentLayer(layer) => format!("layer {layer}, not made yet"),
        }
    }

    /// The symbol, round the middle of a sample of wire.
    fn draw(&self, canvas: &mut Canvas, (x, y): (f64, f64)) {
        let r = 7.0;
        let (from, to) = ((x - 20.0, y), (x + 20.0, y));
        let sample = [x - 20.0, y - 9.0, x + 20.0, y + 9.0];
        match self {
            Item::Gate => marks::node(canvas, (x, y), r, true, false),
            Item::Source => marks::node(canvas, (x, y), r, false, true),
            Item::Node => marks::node(canvas, (x, y), r, false, false),
            Item::Via => marks::via(canvas, (x, y), r, true),
            Item::AbsentVia => marks::via(canvas, (x, y), 0.65 * r, false),
            Item::Jumper | Item::LabelledJumper => marks::jumper(canvas, (x, y), r),
            Item::Harm => canvas.line((x - 12.0, y), (x + 12.0, y), &marks::band(16.0)),
            Item::Factor => canvas.put(format_args!(
                "<text x=\"{x:.1}\" y=\"{:.1}\" text-anchor=\"middle\">×3</text>",
                y + 6.0
            )),
            Item::Obstacle => canvas.rect(sample, marks::obstacle(false)),
            Item::LayeredObstacle => layered_obstacle(canvas, sample, false),
            Item::FaintObstacle => layered_obstacle(canvas, sample, true),
            Item::Border => {
                canvas.rect(sample, marks::BORDER);
                let inner = [x - 12.0, y - 3.0, x + 12.0, y + 3.0];
                canvas.rect(inner, marks::obstacle(false));
            }
            Item::Layer(layer) => canvas.line(from, to, &marks::wire(*layer, 5.0)),
            Item::AbsentLayer(layer) => canvas.line(from, to, &marks::absent_wire(*layer, 5.0)),
        }
    }
}

/// An obstacle with a layer in its middle.
fn layered_obstacle(canvas: &mut Canvas, area: Area, faint: bool) {
    canvas.rect(area, marks::obstacle(faint));
    let (x, y) = ((area[0] + area[2]) / 2.0, (area[1] + area[3]) / 2.0);
    let colour = marks::obstacle_label(faint);
    let text = marks::layer_name(if faint { 1 } else { 3 });
    canvas.put(format_args!(
        "<text x=\"{x:.1}\" y=\"{:.1}\" text-anchor=\"middle\" font-size=\"13\" fill=\"{colour}\">{text}</text>",
        y + 5.0
    ));
}

/// What a picture has.
pub fn items(picture: &Picture) -> Vec<Item> {
    let (net, stage) = (picture.net, picture.stage);
    let node = |has: fn(&Node) -> bool| net.nodes.iter().any(has);
    let wires = || 1..net.nodes.len();
    let via = |present: bool| wires().any(|i| net.is_via(i) && net.present(stage, i) == present);
    let absent = |layer: u8| {
        u32::from(layer) > stage && wires().any(|i| net.layer(i) == layer && !net.is_via(i))
    };
    let layered = layered(net.version);
    let obstacle = |faint: bool| picture.obstacles.iter().any(|shape| shape.faint == faint);
    let made = |layer: u8| picture.pieces.iter().any(|piece| piece.has_layer(layer));
    let marks = [
        (Item::Gate, node(|n| n.gate)),
        (Item::Source, node(|n| n.source)),
        (Item::Node, node(|n| !n.gate && !n.source)),
        (Item::Via, via(true)),
        (Item::AbsentVia, via(false)),
        (Item::Jumper, !picture.jumpers_have_labels()),
        (
            Item::LabelledJumper,
            picture.jumpers_have_labels() && !picture.places.is_empty(),
        ),
        (Item::Harm, picture.pieces.iter().any(|piece| piece.harmful)),
        (Item::Obstacle, !layered && obstacle(false)),
        (Item::LayeredObstacle, layered && obstacle(false)),
        (Item::FaintObstacle, obstacle(true)),
        (Item::Border, picture.bordered),
        (Item::Factor, wires().any(|i| picture.has_factor(i))),
    ];
    let there = marks
        .into_iter()
        .filter(|(_, there)| *there)
        .map(|(item, _)| item);
    there
        .chain((1..=16).filter(|&n| made(n)).map(Item::Layer))
        .chain((1..=16).filter(|&n| absent(n)).map(Item::AbsentLayer))
        .collect()
}

/// The lines of the summary, and items in rows within the width, from a height on; returns where they end.
pub fn draw(canvas: &mut Canvas, top: f64, summary: &[String], items: &[Item]) -> f64 {
    let letters = canvas.letters.max(15.0);
    let row = (1.7 * letters).max(31.0);
    let (mut x, mut y) = (EDGE / 2.0, top);
    canvas.put(format_args!("<g font-size=\"{letters}\">"));
    for line in summary {
        canvas.put(format_args!("<text x=\"{x}\" y=\"{y:.1}\">{line}</text>"));
        y += row;
    }
    for item in items {
        let text = item.text();
        let wide = 58.0 + 0.6 * letters * text.len() as f64;
        if x + wide > canvas.width && x > EDGE / 2.0 {
            x = EDGE / 2.0;
            y += row;
        }
        item.draw(canvas, (x + 20.0, y));
        canvas.put(format_args!(
            "<text x=\"{:.1}\" y=\"{:.1}\">{text}</text>",
            x + 48.0,
            y + 0.35 * letters
        ));
        x += wide + letters;
    }
    canvas.put(format_args!("</g>"));
    y + row
}
