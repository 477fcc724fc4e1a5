//! The product table of a rule as a picture: a colour an element, and dots for the grades of the marked pairs.

use super::colour;
use super::svg::Svg;
use crate::files::Rule;
use crate::text::{grade_word, Names};
use std::ops::Range;

const CELL: f64 = 30.0;
const MARGIN: f64 = 10.0;

/// The table: row a, column b has a·b. The pair (row, column) is framed where it is marked, with as many dots as its grade.
pub fn table_svg(rule: &Rule, names: &Names) -> String {
    block_svg(rule, names, (0..rule.elements, 0..rule.elements))
}

/// Some rows and columns of the table, and below those of the last elements what the signs mean.
pub(super) fn block_svg(
    rule: &Rule,
    names: &Names,
    (rows, columns): (Range<u8>, Range<u8>),
) -> String {
    let last = rows.end == rule.elements && columns.end == rule.elements;
    let legend = match last {
        true => legend_lines(rule, names),
        false => Vec::new(),
    };
    let widest = legend.iter().map(|line| line.chars().count()).max();
    let across = CELL * (columns.len() as f64 + 1.0) + 2.0 * MARGIN;
    let down = CELL * (rows.len() as f64 + 1.0) + 2.0 * MARGIN;
    let width = across.max(2.0 * MARGIN + 7.2 * widest.unwrap_or(0) as f64);
    let mut svg = Svg::new(width, down + MARGIN + 20.0 * legend.len() as f64);
    let corner = |row: u8, column: u8| {
        let place = |number: u8, from: u8| MARGIN + CELL * (f64::from(number - from) + 1.0);
        (place(column, columns.start), place(row, rows.start))
    };
    let half = CELL / 2.0;
    svg.text((MARGIN + half, MARGIN + half), "", "·");
    let bold = "font-weight=\"bold\"";
    for column in columns.clone() {
        let (x, _) = corner(rows.start, column);
        svg.text((x + half, MARGIN + half), bold, &column.to_string());
    }
    for row in rows.clone() {
        let (_, y) = corner(row, columns.start);
        svg.text((MARGIN + half, y + half), bold, &row.to_string());
        for column in columns.clone() {
            let product = rule.product(row, column).unwrap_or(0);
            let grade = rule.grade(row, column).min(3);
            cell(&mut svg, corner(row, column), product, grade);
        }
    }
    for (place, line) in legend.iter().enumerate() {
        let at = (MARGIN, down + 10.0 + 20.0 * place as f64);
        svg.text(at, "text-anchor=\"start\"", line);
    }
    let elements = crate::words::count(usize::from(rule.elements), "element");
    svg.finished(&format!("Product table of a rule with {elements}"))
}

fn cell(svg: &mut Svg, (x, y): (f64, f64), product: u8, grade: u8) {
    let fill = format!("fill=\"{}\" stroke=\"#999\"", colour::of(product));
    svg.rectangle((x, y), (CELL, CELL), &fill);
    let raised = if grade > 0 { 3.0 } else { 0.0 };
    let middle = (x + CELL / 2.0, y + CELL / 2.0 - raised);
    svg.text(middle, "", &product.to_string());
    if grade > 0 {
        let frame = "fill=\"none\" stroke=\"black\" stroke-width=\"2.5\"";
        svg.rectangle((x + 1.5, y + 1.5), (CELL - 3.0, CELL - 3.0), frame);
    }
    for dot in 0..grade {
        let aside = 6.0 * (f64::from(dot) - f64::from(grade - 1) / 2.0);
        svg.circle((middle.0 + aside, y + CELL - 6.5), 2.0, "fill=\"black\"");
    }
}

fn legend_lines(rule: &Rule, names: &Names) -> Vec<String> {
    let letter = |(letter, image): (u8, &u8)| format!("{} = {image}", names.show(letter));
    let letters: Vec<String> = (0..=u8::MAX).zip(&rule.images).map(letter).collect();
    let mut lines: Vec<String> = letters
        .chunks(8)
        .map(|some| format!("letters  {}", some.join(",  ")))
        .collect();
    for grade in (1..=3).rev() {
        if rule.marks.iter().any(|mark| mark.grade == grade) {
            let dots = "•".repeat(usize::from(grade));
            let word = grade_word(grade).unwrap_or("");
            lines.push(format!(
                "{dots}  the pair (row, column) has grade {grade}, {word}"
            ));
        }
    }
    lines
}
