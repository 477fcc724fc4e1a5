//! A graph as DOT.

use super::graph::Diagram;
use std::fmt::Write;

/// The graph in the language of Graphviz.
pub fn dot(diagram: &Diagram) -> String {
    let quoted = |text: &str| format!("\"{}\"", text.replace('\\', "\\\\").replace('"', "\\\""));
    let mut text = String::from("digraph {\n  rankdir=LR;\n  node [shape=circle];\n");
    let _ = writeln!(text, "  label={};", quoted(&diagram.title));
    for (number, node) in diagram.nodes.iter().enumerate() {
        let shape = if node.double {
            " shape=doublecircle"
        } else {
            ""
        };
        let tip = match node.note.is_empty() {
            true => String::new(),
            false => format!(" tooltip={}", quoted(&node.note)),
        };
        let label = quoted(&node.label);
        let _ = writeln!(text, "  {number} [label={label}{shape}{tip}];");
        if let Some(letters) = &node.entered {
            let _ = writeln!(text, "  in{number} [shape=point];");
            let _ = writeln!(
                text,
                "  in{number} -> {number} [label={}];",
                quoted(letters)
            );
        }
    }
    for (from, to, letters) in &diagram.edges {
        let _ = writeln!(text, "  {from} -> {to} [label={}];", quoted(letters));
    }
    text.push_str("}\n");
    text
}
