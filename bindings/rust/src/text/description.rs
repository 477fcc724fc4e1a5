//! The description of a rule or an automaton: the comments right behind the first line of its text.

use super::start::from_first_line;

/// The lines of the description, each as it stands behind its `#`.
pub(super) fn read(text: &str) -> Vec<String> {
    let first = from_first_line(text.as_bytes());
    let text = text.get(text.len() - first.len()..).unwrap_or("");
    let lines = text.lines().skip(1).map(str::trim);
    lines
        .map_while(|line| Some(line.strip_prefix('#')?.to_string()))
        .collect()
}

/// A text with a description behind its first line.
pub fn described(text: &str, description: &[String]) -> String {
    let end = text.find('\n').map_or(text.len(), |end| end + 1);
    let (first, rest) = text.split_at(end);
    let lines: String = description
        .iter()
        .map(|line| format!("#{line}\n"))
        .collect();
    format!("{first}{lines}{rest}")
}

/// The description of a rule that is made of another, under a word for how; none where that has none.
pub fn description_of_one(how: &str, rule: &[String]) -> Vec<String> {
    made_of(how, &[rule])
}

/// The description of a rule that is made of two, under a word for how; none where neither has one.
pub fn description_of_two(how: &str, rules: [&[String]; 2]) -> Vec<String> {
    made_of(how, &rules)
}

fn made_of(how: &str, rules: &[&[String]]) -> Vec<String> {
    if rules.iter().all(|own| own.is_empty()) {
        return Vec::new();
    }
    let mut lines = vec![format!(" {how}:")];
    for own in rules {
        match own.is_empty() {
            true => lines.push("   a rule without a description".to_string()),
            false => lines.extend(own.iter().map(|line| format!("  {line}"))),
        }
    }
    lines
}
