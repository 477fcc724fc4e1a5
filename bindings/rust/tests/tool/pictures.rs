//! Pictures and pages: well formed, whole, and with everything on them.

use crate::program::{run_with, Ran};
use crate::samples::{AUTOMATON, GRADED, NAMED, NOT_ASSOCIATIVE, Z};

/// That every element of an SVG or HTML text is closed in its turn, those of HTML that have no end aside.
fn check_nesting(text: &str) {
    let mut open: Vec<&str> = Vec::new();
    for (at, _) in text.match_indices('<') {
        let rest = &text[at + 1..];
        let end = rest.find('>').expect("a tag ends");
        let tag = &rest[..end];
        if tag.starts_with('!') || tag.ends_with('/') {
            continue;
        }
        match tag.strip_prefix('/') {
            Some(name) => assert_eq!(open.pop(), Some(name), "{text}"),
            None => {
                let name = tag.split_whitespace().next().expect("a tag has a name");
                if name != "meta" {
                    open.push(name);
                }
            }
        }
    }
    assert!(open.is_empty(), "{open:?} is open in {text}");
}

fn drawn(words: &[&str], input: &[u8]) -> String {
    let ran: Ran = run_with(words, input);
    let text = ran.printed(0).to_string();
    check_nesting(&text);
    text
}

#[test]
fn tables() {
    let svg = drawn(&["picture", "-"], GRADED);
    assert!(svg.starts_with("<svg xmlns="));
    // A frame for each of the three marks, and as many dots as their grades together.
    assert_eq!(svg.matches("stroke-width=\"2.5\"").count(), 3);
    assert_eq!(svg.matches("<circle").count(), 6);
    for line in ["grade 3, proper", "grade 2, tolerable", "grade 1, poor"] {
        assert!(svg.contains(line), "{line}");
    }
    // One colour for an element, another for another.
    let fills: std::collections::BTreeSet<&str> = svg
        .match_indices("fill=\"hsl(")
        .map(|(at, _)| svg[at..].split('"').nth(1).expect("a colour"))
        .collect();
    assert_eq!(fills.len(), 2);
    assert!(drawn(&["picture", "-"], NAMED.as_bytes()).contains("open = 0,  shut = 1"));
    run_with(&["picture", "-"], NOT_ASSOCIATIVE).said(2, "refusal 5");
}

#[test]
fn graphs() {
    let svg = drawn(&["picture", "-", "--of", "graph"], Z);
    assert!(svg.contains("Right products"));
    let svg = drawn(&["picture", "-"], AUTOMATON);
    assert!(svg.contains("Automaton; final states"));
    let dot = run_with(&["picture", "-", "--to", "dot"], AUTOMATON);
    let dot = dot.printed(0);
    assert!(dot.starts_with("digraph {\n") && dot.ends_with("}\n"));
    assert!(
        dot.contains("  1 [label=\"1\" shape=doublecircle];\n"),
        "{dot}"
    );
    assert!(dot.contains("  0 -> 1 [label=\"0\"];\n") && dot.contains("  in0 -> 0"));
    let dot = run_with(
        &["picture", "-", "--of", "graph", "--to", "dot"],
        NAMED.as_bytes(),
    );
    assert!(dot.printed(0).contains("  1 -> 0 [label=\"open\"];\n"));
    run_with(&["picture", "-", "--to", "dot"], Z).said(3, "a table has no DOT");
    run_with(&["picture", "-", "--of", "table"], AUTOMATON).said(3, "it draws tables");
}

#[test]
fn pages() {
    let page = drawn(&["page", "-", "--title", "Flap <&> pump"], NAMED.as_bytes());
    assert!(page.starts_with("<!DOCTYPE html>"));
    assert!(page.contains("<title>Flap &lt;&amp;&gt; pump</title>"));
    for part in [
        "<h2>Products</h2>",
        "<tr><td>0</td><td>open</td><td>0</td></tr>",
        "<tr><td>0</td><td>0</td><td>3 proper</td></tr>",
        "<tr><td>1</td><td>shut</td></tr>",
        "3 linked pairs in 3 classes",
        "<li>(0, 1)</li>",
        "Strong: ",
    ] {
        assert!(page.contains(part), "{part} in {page}");
    }
    // One file: nothing is fetched.
    for outside in ["src=", "href=", "url(", "@import", "<script"] {
        assert!(!page.contains(outside), "{outside}");
    }
    let why = "u: 0  v: 0 0 has grade 3, u: 0  v: 1 has grade 0; both have the values 1 and 0.";
    assert!(drawn(&["page", "-"], Z).contains(why));
    run_with(&["page", "-"], AUTOMATON).said(2, "refusal 3");
}
