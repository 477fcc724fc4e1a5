//! A page about a rule for a printer: one HTML file with nothing outside it.

use super::svg::escaped;
use super::table::block_svg;
use crate::files::{Lasso, Rule};
use crate::owned;
use crate::text::{grade_word, print_lasso, print_word, Names};
use crate::witness::why_weak;
use crate::words::{explain, Asked, Explained};
use crate::Strength;
use std::fmt::Write;
use std::ops::Range;

const STYLE: &str = "
body { font: 11pt/1.4 serif; max-width: 46em; margin: 2em auto; padding: 0 1em; color: black; background: white; }
h1 { font-size: 1.5em; margin-bottom: 0.2em; } h2 { font-size: 1.1em; margin: 1.4em 0 0.4em; }
table { border-collapse: collapse; } th, td { border: 1px solid #777; padding: 0.15em 0.6em; text-align: left; }
th { background: #eee; } td.number { text-align: right; }
figure { margin: 0; } figure svg { max-width: 100%; height: auto; }
.columns { columns: 3 11em; } .columns table { width: 100%; } ol { columns: 4 9em; }
tr, figure { break-inside: avoid; } h2 { break-after: avoid; }
@page { size: A4; margin: 16mm; }
@media print { body { margin: 0; max-width: none; padding: 0; } th { background: none; font-weight: bold; } }
";

/// The most rows and columns of the table in one picture.
const BLOCK: u8 = 32;

/// The page of a rule: its description, table, letters, marks by s, then by e, with their grades, each element's first word, and the classes.
pub fn page(
    bytes: &[u8],
    names: &Names,
    title: &str,
    description: &[String],
) -> Result<String, Explained> {
    let rule = Rule::read(bytes).map_err(|refused| explain(refused, Asked::Rule(bytes)))?;
    let strong = owned::strong(bytes)? == Strength::Strong;
    let classes = owned::classes(bytes)?;
    let title = escaped(title);
    let mut html = format!(
        "<!DOCTYPE html>\n<html lang=\"en\">\n<head>\n<meta charset=\"utf-8\">\n<title>{title}</title>\n<style>{STYLE}</style>\n</head>\n<body>\n<h1>{title}</h1>\n"
    );
    if !description.is_empty() {
        let lines: Vec<String> = description
            .iter()
            .map(|line| escaped(line.trim()))
            .collect();
        let _ = writeln!(html, "<p>{}</p>", lines.join("<br>\n"));
    }
    let counts = [
        crate::words::count(usize::from(rule.elements), "element"),
        crate::words::count(rule.images.len(), "letter"),
        crate::words::count(rule.marks.len(), "mark"),
    ];
    let strength = match strong {
        true => "Strong: the values of start and cycle decide the grade.".to_string(),
        false => format!(
            "Weak: lassos with equal values have different grades. {}",
            why(bytes, names)?
        ),
    };
    let _ = writeln!(html, "<p>{}. {strength}</p>", counts.join(", "));
    html.push_str("<h2>Products</h2>\n");
    for rows in blocks(rule.elements) {
        for columns in blocks(rule.elements) {
            let svg = block_svg(&rule, names, (rows.clone(), columns));
            let _ = writeln!(html, "<figure>{svg}</figure>");
        }
    }
    let letters = (0..=u8::MAX).zip(&rule.images).map(|(letter, image)| {
        let name = names.of(letter).unwrap_or_default();
        vec![letter.to_string(), name, image.to_string()]
    });
    section(
        &mut html,
        "Letters",
        &["letter", "name", "element"],
        letters,
    );
    let mut marks = rule.marks.clone();
    marks.sort_unstable();
    let marks = marks.iter().map(|mark| {
        let grade = format!("{} {}", mark.grade, grade_word(mark.grade).unwrap_or(""));
        vec![mark.s.to_string(), mark.e.to_string(), grade]
    });
    section(&mut html, "Marks", &["s", "e", "grade"], marks);
    let words = rule
        .first_words()
        .into_iter()
        .enumerate()
        .map(|(element, word)| {
            vec![
                element.to_string(),
                print_word(&word.unwrap_or_default(), names),
            ]
        });
    section(&mut html, "First words", &["element", "word"], words);
    let linked = crate::words::count(classes.counts.linked, "linked pair");
    let number = match classes.counts.classes {
        1 => "1 class".to_string(),
        number => format!("{number} classes"),
    };
    let _ = writeln!(html, "<h2>Classes</h2>\n<p>{linked} in {number}.</p>");
    html.push_str("<ol>\n");
    for class in classes.by_least() {
        let pairs: Vec<String> = class.iter().map(|(s, e)| format!("({s}, {e})")).collect();
        let _ = writeln!(html, "<li>{}</li>", pairs.join(" "));
    }
    html.push_str("</ol>\n</body>\n</html>\n");
    Ok(html)
}

/// Two lassos that show that a rule is weak.
fn why(bytes: &[u8], names: &Names) -> Result<String, Explained> {
    let Some(weakness) = why_weak(bytes)? else {
        return Ok(String::new());
    };
    let shown =
        |(lasso, grade): &(Lasso, u8)| format!("{} has grade {grade}", print_lasso(lasso, names));
    let (higher, lower) = (shown(&weakness.higher), shown(&weakness.lower));
    let (start, cycle) = (weakness.start, weakness.cycle);
    let both = format!("both have the values {start} and {cycle}");
    Ok(escaped(&format!("{higher}, {lower}; {both}.")))
}

/// The rows or columns of each part of the table: as many as can be read on a page.
fn blocks(elements: u8) -> impl Iterator<Item = Range<u8>> {
    let starts = (0..elements).step_by(usize::from(BLOCK));
    starts.map(move |start| start..elements.min(start + BLOCK))
}

/// A heading and a table, in columns where it is long.
fn section(
    html: &mut String,
    heading: &str,
    head: &[&str],
    rows: impl Iterator<Item = Vec<String>>,
) {
    let rows: Vec<Vec<String>> = rows.collect();
    let _ = writeln!(html, "<h2>{heading}</h2>");
    if rows.is_empty() {
        html.push_str("<p>None.</p>\n");
        return;
    }
    let cells = |row: &[String], tag: &str| -> String {
        let cell = |cell: &String| format!("<{tag}>{}</{tag}>", escaped(cell));
        row.iter().map(cell).collect()
    };
    let head: Vec<String> = head.iter().map(|word| word.to_string()).collect();
    let long = rows.len() > 12;
    html.push_str(if long {
        "<div class=\"columns\">\n"
    } else {
        "<div>\n"
    });
    for part in rows.chunks(if long {
        rows.len().div_ceil(3)
    } else {
        rows.len()
    }) {
        let _ = writeln!(html, "<table>\n<tr>{}</tr>", cells(&head, "th"));
        for row in part {
            let _ = writeln!(html, "<tr>{}</tr>", cells(row, "td"));
        }
        html.push_str("</table>\n");
    }
    html.push_str("</div>\n");
}
