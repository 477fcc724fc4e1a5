//! A graph as SVG.

use super::graph::Diagram;
use super::layers::{layers, Layers};
use super::svg::Svg;

const RADIUS: f64 = 17.0;
const ACROSS: f64 = 200.0;
const DOWN: f64 = 90.0;
const LINE: &str = "fill=\"none\" stroke=\"#333\" stroke-width=\"1.2\"";
const HALO: &str = "stroke=\"white\" stroke-width=\"4\" paint-order=\"stroke\" font-size=\"12\"";

type Point = (f64, f64);

/// The graph in columns, with the letters on its edges and below it what each node is told of.
pub fn graph_svg(diagram: &Diagram) -> String {
    let layers = layers(diagram);
    let centre = |node: usize| centre(&layers, node);
    let notes: Vec<String> = diagram
        .nodes
        .iter()
        .filter(|node| !node.note.is_empty())
        .map(|node| format!("{}: {}", node.label, node.note))
        .collect();
    let noted = notes.len().div_ceil(2) as f64;
    let width = (ACROSS * layers.columns as f64 + 80.0).max(460.0);
    let graph_height = DOWN * layers.rows as f64 + 60.0;
    let heading = if notes.is_empty() { 0.0 } else { 24.0 };
    let mut svg = Svg::new(width, graph_height + 36.0 + heading + 18.0 * noted);
    for (from, to, letters) in &diagram.edges {
        match from == to {
            true => draw_loop(&mut svg, centre(*from), letters),
            false => draw_edge(&mut svg, centre(*from), centre(*to), letters),
        }
    }
    for (number, node) in diagram.nodes.iter().enumerate() {
        let at = centre(number);
        if let Some(letters) = &node.entered {
            let from = (at.0 - RADIUS - 42.0, at.1);
            draw_line(&mut svg, from, (at.0 - RADIUS - 1.0, at.1));
            svg.text((at.0 - RADIUS - 24.0, at.1 - 9.0), HALO, letters);
        }
        let fill = format!(
            "fill=\"{}\" stroke=\"black\" stroke-width=\"1.4\"",
            node.fill
        );
        svg.circle(at, RADIUS, &fill);
        if node.double {
            svg.circle(at, RADIUS - 3.5, "fill=\"none\" stroke=\"black\"");
        }
        svg.text(at, "", &node.label);
    }
    let start = "text-anchor=\"start\"";
    svg.text((16.0, graph_height + 12.0), start, &diagram.title);
    if !notes.is_empty() {
        svg.text((16.0, graph_height + 38.0), start, "First words");
    }
    for (place, note) in notes.iter().enumerate() {
        let row = (place % notes.len().div_ceil(2)) as f64;
        let column = (place / notes.len().div_ceil(2)) as f64;
        let at = (
            24.0 + column * width / 2.0,
            graph_height + 60.0 + 18.0 * row,
        );
        svg.text(at, start, note);
    }
    svg.finished(&diagram.title)
}

fn centre(layers: &Layers, node: usize) -> Point {
    let (column, row) = layers.places[node];
    let empty = (layers.rows - layers.filled[column]) as f64 / 2.0;
    // Odd columns stand lower and odd rows further right, so that edges to the next but one do not run through a node.
    let lower = if column % 2 == 1 { 20.0 } else { 0.0 };
    let aside = if row % 2 == 1 { 70.0 } else { 0.0 };
    (
        90.0 + ACROSS * column as f64 + aside,
        75.0 + DOWN * (row as f64 + empty) + lower,
    )
}

fn arrow(svg: &mut Svg, at: Point, (dx, dy): Point) {
    let length = (dx * dx + dy * dy).sqrt().max(0.001);
    let (dx, dy) = (dx / length, dy / length);
    let side = |sign: f64| {
        let (x, y) = (
            at.0 - 9.0 * dx - sign * 4.0 * dy,
            at.1 - 9.0 * dy + sign * 4.0 * dx,
        );
        format!("{x:.1},{y:.1}")
    };
    let head = format!("M{:.1},{:.1} L{} L{} Z", at.0, at.1, side(1.0), side(-1.0));
    svg.path(&head, "fill=\"#333\"");
}

fn draw_line(svg: &mut Svg, from: Point, to: Point) {
    let data = format!("M{:.1},{:.1} L{:.1},{:.1}", from.0, from.1, to.0, to.1);
    svg.path(&data, LINE);
    arrow(svg, to, (to.0 - from.0, to.1 - from.1));
}

fn draw_loop(svg: &mut Svg, (x, y): Point, letters: &str) {
    let data = format!(
        "M{:.1},{:.1} C{:.1},{:.1} {:.1},{:.1} {:.1},{:.1}",
        x - 9.0,
        y - RADIUS + 2.0,
        x - 22.0,
        y - 50.0,
        x + 22.0,
        y - 50.0,
        x + 9.0,
        y - RADIUS + 2.0
    );
    svg.path(&data, LINE);
    arrow(svg, (x + 9.0, y - RADIUS + 2.0), (-13.0, 34.0));
    svg.text((x, y - 50.0), HALO, letters);
}

/// A curve that bends to its left, so that the two edges between two nodes stand apart.
fn draw_edge(svg: &mut Svg, from: Point, to: Point, letters: &str) {
    let (dx, dy) = (to.0 - from.0, to.1 - from.1);
    let length = (dx * dx + dy * dy).sqrt().max(0.001);
    let share = if dx.abs() < ACROSS / 2.0 { 0.24 } else { 0.16 };
    let bend = (share * length).clamp(18.0, 160.0);
    let bent = (
        (from.0 + to.0) / 2.0 + bend * dy / length,
        (from.1 + to.1) / 2.0 - bend * dx / length,
    );
    let towards = |centre: Point| {
        let (x, y) = (bent.0 - centre.0, bent.1 - centre.1);
        let far = (x * x + y * y).sqrt().max(0.001);
        (
            centre.0 + x / far * (RADIUS + 1.0),
            centre.1 + y / far * (RADIUS + 1.0),
        )
    };
    let (start, end) = (towards(from), towards(to));
    let data = format!(
        "M{:.1},{:.1} Q{:.1},{:.1} {:.1},{:.1}",
        start.0, start.1, bent.0, bent.1, end.0, end.1
    );
    svg.path(&data, LINE);
    arrow(svg, end, (end.0 - bent.0, end.1 - bent.1));
    // Nearer to where it leaves than to where others arrive.
    let along = |start: f64, bent: f64, end: f64| 0.4 * start + 0.46 * bent + 0.14 * end;
    let label = (along(start.0, bent.0, end.0), along(start.1, bent.1, end.1));
    svg.text(label, HALO, letters);
}
