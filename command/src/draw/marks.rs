//! Symbols and colours.

use super::canvas::Canvas;
use super::scale::{square, Area, Scale};
use crate::net::Net;

/// The colour of each layer from 1 on; red is kept for harm, grey for obstacles.
const LAYERS: [&str; 16] = [
    "#1f77b4", "#2ca02c", "#ff7f0e", "#17a2b8", "#8c564b", "#a8a410", "#e377c2", "#00407a",
    "#005a30", "#d4a000", "#74b8ff", "#8fd14f", "#8a6fd1", "#c49c6b", "#4a6a7a", "#b34700",
];

pub const HARM: &str = "#d00";
pub const JUMPER: &str = "#606";
pub const NODE: &str = "#222";
const ABSENT: &str = "#444";

/// Half the width of a mark, as a multiple of a gate's.
const DOT: f64 = 0.45;
const SOURCE: f64 = 2.0;
const VIA: f64 = 1.5;
const ABSENT_VIA: f64 = 3.1;

pub fn layer(layer: u8) -> &'static str {
    LAYERS[usize::from(layer) - 1]
}

/// A layer in a label.
pub fn layer_name(layer: u8) -> String {
    format!("L{layer}")
}

pub fn wire(layer_number: u8, wide: f64) -> String {
    let colour = layer(layer_number);
    format!("stroke=\"{colour}\" stroke-width=\"{wide}\" stroke-linecap=\"round\"")
}

/// A wire that the stage does not have.
pub fn absent_wire(layer_number: u8, wide: f64) -> String {
    format!(
        "stroke=\"{}\" stroke-width=\"{:.1}\" stroke-opacity=\"0.7\" stroke-dasharray=\"{wide} {:.1}\"",
        layer(layer_number),
        wide * 0.5,
        wide * 1.2
    )
}

pub fn band(wide: f64) -> String {
    format!("stroke=\"{HARM}\" stroke-width=\"{wide}\" stroke-linecap=\"round\" opacity=\"0.3\"")
}

const OBSTACLE: &str = "fill=\"#777\" fill-opacity=\"0.3\" stroke=\"#777\" stroke-width=\"0.7\"";
const FAINT: &str = "fill=\"#777\" fill-opacity=\"0.08\" stroke=\"#777\" stroke-width=\"0.7\" stroke-dasharray=\"2 3\"";

/// The border that a clearance keeps free.
pub const BORDER: &str = "fill=\"#777\" fill-opacity=\"0.1\" stroke=\"#777\" stroke-width=\"0.7\" stroke-dasharray=\"7 4\"";

pub fn obstacle(faint: bool) -> &'static str {
    if faint {
        FAINT
    } else {
        OBSTACLE
    }
}

/// The colour of an obstacle's label.
pub fn obstacle_label(faint: bool) -> &'static str {
    if faint {
        "#777"
    } else {
        "#444"
    }
}

/// How far the marks at a node's point reach from their middle, r being half the width of a gate.
pub fn reach(net: &Net, stage: u32, i: usize, r: f64) -> f64 {
    let here = |k: &usize| (net.nodes[*k].x, net.nodes[*k].y) == (net.nodes[i].x, net.nodes[i].y);
    let reach = |k: usize| {
        let node = net.nodes[k];
        if k > 0 && net.is_via(k) && !net.present(stage, k) {
            ABSENT_VIA * r
        } else if node.source {
            SOURCE * r
        } else if k > 0 && net.is_via(k) {
            VIA * r
        } else if node.gate {
            r
        } else {
            DOT * r
        }
    };
    let all = (0..net.nodes.len()).filter(here).map(reach);
    all.fold(0.0, f64::max)
}

/// What the marks of nodes take.
pub fn areas(net: &Net, stage: u32, scale: &Scale) -> Vec<Area> {
    let reach = |i| reach(net, stage, i, scale.size.gate);
    let area = |i| square(scale.node(&net.nodes[i]), reach(i));
    (0..net.nodes.len()).map(area).collect()
}

/// A node: a square is a gate, a ring a source, a dot neither.
pub fn node(canvas: &mut Canvas, (x, y): (f64, f64), r: f64, gate: bool, source: bool) {
    if gate {
        canvas.rect(square((x, y), r), &format!("fill=\"{NODE}\""));
    }
    if source {
        canvas.put(format_args!(
            "<circle cx=\"{x:.1}\" cy=\"{y:.1}\" r=\"{:.1}\" fill=\"none\" stroke=\"#060\" stroke-width=\"{:.1}\"/>",
            r * (SOURCE - 0.2),
            r * 0.4
        ));
    }
    if !gate {
        canvas.put(format_args!(
            "<circle cx=\"{x:.1}\" cy=\"{y:.1}\" r=\"{:.1}\" fill=\"{NODE}\"/>",
            r * DOT
        ));
    }
}

/// A via: a diamond, broken and wider where the stage does not have it.
pub fn via(canvas: &mut Canvas, (x, y): (f64, f64), r: f64, present: bool) {
    let (reach, style) = if present {
        (
            VIA * r,
            format!(
                "fill=\"white\" stroke=\"{NODE}\" stroke-width=\"{:.1}\"",
                r * 0.25
            ),
        )
    } else {
        (
            ABSENT_VIA * r,
            format!(
                "fill=\"none\" stroke=\"{ABSENT}\" stroke-width=\"{:.1}\" stroke-dasharray=\"{:.1}\"",
                r * 0.2,
                r * 0.4
            ),
        )
    };
    canvas.put(format_args!(
        "<path d=\"M{:.1} {y:.1}L{x:.1} {:.1}L{:.1} {y:.1}L{x:.1} {:.1}Z\" {style}/>",
        x - reach,
        y - reach,
        x + reach,
        y + reach
    ));
}

/// A jumper: a dark cross on a white one, so that it is seen on a wire of any colour.
pub fn jumper(canvas: &mut Canvas, (x, y): (f64, f64), r: f64) {
    for (colour, wide) in [("#fff", 0.95), (JUMPER, 0.45)] {
        canvas.put(format_args!(
            "<path d=\"M{:.1} {:.1}L{:.1} {:.1}M{:.1} {:.1}L{:.1} {:.1}\" stroke=\"{colour}\" stroke-width=\"{:.1}\"/>",
            x - r,
            y - r,
            x + r,
            y + r,
            x - r,
            y + r,
            x + r,
            y - r,
            r * wide
        ));
    }
}
