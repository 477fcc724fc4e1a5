//! The page of the chains leads from each public call to the crates whose functions it runs. Its lists are made here from the sources, and the page must
//! have them as they are made. To write them anew, run this test with WRITE_CHAINS=1.

use std::collections::{BTreeMap, BTreeSet};
use std::fs;
use std::path::{Path, PathBuf};

use super::reading::code::Code;
use super::reading::repository::Repository;

/// Behind this line the page is made.
const BEGIN: &str = "<!-- made from the sources by bindings/rust/tests/sources/chains.rs -->\n";

/// The crates with calls for users: the one that passes the library's on, and the board above it.
const FACES: [&str; 2] = ["rules", "board"];

/// Functions on which many calls rest: their chains are told once, and other chains end at them.
const SHARED: [(&str, &str, &str); 6] = [
    ("rule_check", "check", "The check of a rule"),
    ("mark_strong", "decide", "Whether a checked rule is strong"),
    (
        "rule_laid",
        "write_laid",
        "A rule that is laid out in scratch, written",
    ),
    ("reduce_rounds", "refine", "The rounds of a reduction"),
    (
        "two_rules",
        "check_both",
        "Two rules checked in one scratch",
    ),
    (
        "two_rules",
        "decide_both",
        "Whether two checked rules are strong",
    ),
];

/// The ground of nearly every call, which the page names once: products and images read, bytes held against a bound, counted sections and zeros.
const GROUND: [&str; 3] = ["rule_table", "section_bounds", "sections"];

/// A function, by its crate and its name.
type Way = (String, String);

/// The functions of the library, each with those that it names.
struct Calls {
    named: BTreeMap<Way, Vec<Way>>,
    leading: BTreeMap<String, String>,
}

/// The comment at the head of a file, in one line.
fn heading(text: &str) -> String {
    let lines = text.lines().map_while(|line| line.strip_prefix("//"));
    let words: Vec<&str> = lines.flat_map(str::split_whitespace).collect();
    words.join(" ")
}

/// What it says first, up to the end of a sentence, a colon or a semicolon, without what it says of the documents that the library was asked for by.
fn first_sentence(text: &str) -> String {
    let mut plain = text.to_string();
    while let Some(at) = plain.find(" (document ") {
        let end = plain[at..]
            .find(')')
            .map_or(plain.len(), |end| at + end + 1);
        plain.replace_range(at..end, "");
    }
    let ends = [". ", ": ", "; ", ", as document 01 ", ", as specs/"]
        .iter()
        .filter_map(|mark| plain.find(mark));
    let end = ends.min().unwrap_or(plain.len());
    plain[..end].trim_end_matches('.').to_string()
}

impl Calls {
    fn of(repository: &Repository) -> Calls {
        let mut codes: BTreeMap<String, Code> = BTreeMap::new();
        let mut leading = BTreeMap::new();
        for (path, text) in repository.ending("/src/lib.rt") {
            let home = path
                .split('/')
                .next()
                .expect("the crate of a file")
                .to_string();
            leading.insert(home.clone(), first_sentence(&heading(text)));
            codes.insert(home, Code::read(text));
        }
        let mut named = BTreeMap::new();
        for (home, code) in &codes {
            for function in &code.functions {
                let way = |word: &str| -> Option<Way> {
                    if code.functions.iter().any(|other| other.name == word) {
                        return Some((home.clone(), word.to_string()));
                    }
                    let import = code.imports.iter().find(|import| import.item == word)?;
                    Calls::declared(&codes, &import.home, &import.item)
                };
                let mut ways: Vec<Way> = Vec::new();
                for token in &function.body {
                    if let Some(found) = way(&token.text) {
                        if !ways.contains(&found) {
                            ways.push(found);
                        }
                    }
                }
                named.insert((home.clone(), function.name.clone()), ways);
            }
        }
        Calls { named, leading }
    }

    /// Where a function stands that a crate has or passes on.
    fn declared(codes: &BTreeMap<String, Code>, home: &str, item: &str) -> Option<Way> {
        let code = codes.get(home)?;
        if code.functions.iter().any(|function| function.name == item) {
            return Some((home.to_string(), item.to_string()));
        }
        let passed = code
            .imports
            .iter()
            .find(|import| import.passed_on && import.item == item)?;
        Calls::declared(codes, &passed.home, &passed.item)
    }

    /// The functions that a function runs, itself too, each with those that it names; a shared one ends the way.
    fn reached(&self, from: &Way) -> BTreeMap<Way, Vec<Way>> {
        let mut found = BTreeMap::new();
        let mut waiting = vec![from.clone()];
        while let Some(way) = waiting.pop() {
            if found.contains_key(&way) {
                continue;
            }
            let named = match shared(&way) {
                Some(_) if &way != from => Vec::new(),
                _ => self.named[&way].clone(),
            };
            waiting.extend(named.iter().cloned());
            found.insert(way, named);
        }
        found
    }

    /// The crates of those functions, each before the ones whose functions it names, and else in the order of their names.
    fn ordered(functions: &BTreeMap<Way, Vec<Way>>) -> Vec<String> {
        let mut left: BTreeSet<String> = functions.keys().map(|way| way.0.clone()).collect();
        let mut order = Vec::new();
        while !left.is_empty() {
            let below = |name: &String| {
                functions.iter().any(|(way, named)| {
                    way.0 != *name
                        && left.contains(&way.0)
                        && named.iter().any(|called| called.0 == *name)
                })
            };
            let next = left
                .iter()
                .find(|name| !below(name))
                .expect("crates do not go round in circles")
                .clone();
            left.remove(&next);
            order.push(next);
        }
        order
    }

    /// A line for each crate on the way from a function down.
    fn chain(&self, from: &Way) -> Vec<String> {
        let functions = self.reached(from);
        let mut lines = Vec::new();
        for home in Calls::ordered(&functions) {
            if GROUND.contains(&home.as_str()) {
                continue;
            }
            let own = functions.keys().filter(|way| way.0 == home);
            let told = own.filter(|way| *way != from).find_map(shared);
            let line = match told {
                Some(title) => format!("- `{home}`: *{title}*, below"),
                None => format!("- `{home}`: {}", self.leading[&home]),
            };
            lines.push(line);
        }
        lines
    }

    fn section(&self, calls: &[Way]) -> String {
        let mut lines: Vec<String> = Vec::new();
        for way in calls {
            let face = match way.0.as_str() {
                "board" | "board_values" => "board::",
                _ => "",
            };
            lines.push(format!("## `{face}{}`\n", way.1));
            lines.extend(self.chain(way));
            lines.push(String::new());
        }
        for (home, function, title) in SHARED {
            lines.push(format!("## {title}\n"));
            lines.extend(self.chain(&(home.to_string(), function.to_string())));
            lines.push(String::new());
        }
        lines.join("\n")
    }
}

fn shared(way: &Way) -> Option<&'static str> {
    let found = SHARED
        .iter()
        .find(|(home, function, _)| way.0 == *home && way.1 == *function);
    found.map(|(_, _, title)| *title)
}

/// The public calls, in the order in which they are passed on, then the board's.
fn public_calls(repository: &Repository, calls: &Calls) -> Vec<Way> {
    let mut found = Vec::new();
    for face in FACES {
        let text = repository
            .text(&format!("{face}/src/lib.rt"))
            .expect("a face of the library");
        let code = Code::read(text);
        for import in code.imports.iter().filter(|import| import.passed_on) {
            let way = (import.home.clone(), import.item.clone());
            if calls.named.contains_key(&way) {
                found.push(way);
            }
        }
        let own = code.functions.iter().filter(|function| function.public);
        found.extend(own.map(|function| (face.to_string(), function.name.clone())));
    }
    found
}

fn page() -> PathBuf {
    Path::new(env!("CARGO_MANIFEST_DIR")).join("../../docs/CHAINS.md")
}

#[test]
fn the_page_leads_from_each_call_to_its_crates() {
    let repository = Repository::here();
    let calls = Calls::of(&repository);
    let public = public_calls(&repository, &calls);
    assert!(public.len() >= 28, "only {} public calls", public.len());
    let section = calls.section(&public);
    let text = fs::read_to_string(page()).expect("the page");
    let from = text.find(BEGIN).expect("where the lists begin") + BEGIN.len();
    if std::env::var_os("WRITE_CHAINS").is_some() {
        fs::write(page(), format!("{}\n{section}", &text[..from])).expect("the page is written");
        return;
    }
    let stands = text[from..].trim_start_matches('\n');
    let first = stands.lines().zip(section.lines()).find(|(a, b)| a != b);
    assert_eq!(first, None, "the page differs from the sources");
    assert_eq!(stands.lines().count(), section.lines().count());
}

#[test]
fn a_chain_has_each_crate_once_before_those_it_uses() {
    let repository = Repository::made_up(&[
        (
            "low/src/lib.rt",
            "// The ground. More.\npub fn ground() -> u8 {\n    1\n}\npub fn unused() -> u8 {\n    2\n}\n",
        ),
        (
            "aside/src/lib.rt",
            "// Not named.\npub fn aside() -> u8 {\n    3\n}\n",
        ),
        (
            "high/src/lib.rt",
            "// What is on it (document 01: roof).\nuse low::ground;\nuse middle::between;\npub fn roof() -> u8 {\n    between() + ground()\n}\n",
        ),
        (
            "middle/src/lib.rt",
            "// What lies\n// between: both.\nuse low::ground;\npub fn between() -> u8 {\n    ground()\n}\n",
        ),
    ]);
    let calls = Calls::of(&repository);
    let chain = calls.chain(&("high".to_string(), "roof".to_string()));
    assert_eq!(
        chain,
        [
            "- `high`: What is on it",
            "- `middle`: What lies between",
            "- `low`: The ground"
        ]
    );
}
