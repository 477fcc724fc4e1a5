//! A strong rule as C: its tables, and what follows events with them.
//!
//! A monitor's two values are numbers of rows, and behind the elements there is a row for a monitor that saw nothing.

use crate::files::Rule;
use crate::text::Names;
use crate::witness::value_grades;
use crate::words::Explained;
use std::fmt::Write;

/// A strong rule as a C file: a table of steps, one of products and one of grades, and the functions of a monitor. What is to be said of the rule
/// stands in a comment before them. None where the bytes are no rule, though no call refuses them.
pub fn print_rule_tables(
    rule: &[u8],
    names: &Names,
    about: &[String],
) -> Result<Option<String>, Explained> {
    let Some(grades) = value_grades(rule)? else {
        return Ok(None);
    };
    let Some(parts) = Rule::take_apart(rule) else {
        return Ok(None);
    };
    let (elements, letters) = (usize::from(parts.elements), parts.images.len());
    let mut text = String::from("/* A rule as tables, and a monitor of it.\n");
    for line in about {
        let _ = writeln!(text, "   {}", in_comment(line));
    }
    if names.any() {
        for letter in (0..=u8::MAX).take(letters) {
            let name = in_comment(&names.show(letter));
            let _ = writeln!(text, "   Letter {letter}: {name}");
        }
    }
    text += "   */\n\n";
    let _ = writeln!(
        text,
        "enum {{ ELEMENTS = {elements}, LETTERS = {letters}, NONE = ELEMENTS, NO_GRADE = 4 }};\n"
    );
    let rows = parts.products.chunks_exact(elements);
    let steps = rows.clone().map(|row| {
        let step = |image: &u8| row.get(usize::from(*image)).copied();
        parts.images.iter().filter_map(step).collect()
    });
    let steps: Vec<Vec<u8>> = steps.chain([parts.images.clone()]).collect();
    let products: Vec<Vec<u8>> = rows.map(<[u8]>::to_vec).collect();
    let grades: Vec<Vec<u8>> = grades.chunks_exact(elements).map(<[u8]>::to_vec).collect();
    text += &table(
        "The value of a word with a letter behind it; the last row is that of no word.",
        "step[ELEMENTS + 1][LETTERS]",
        &steps,
    );
    text += &table(
        "The value of two words, one behind the other.",
        "product[ELEMENTS][ELEMENTS]",
        &products,
    );
    text += &table(
        "The grade, 0 to 3, by the values before and since; the last row is that of nothing before.",
        "grade[ELEMENTS + 1][ELEMENTS]",
        &grades,
    );
    Ok(Some(text + MONITOR))
}

/// Words that neither end a comment nor seem to begin one.
fn in_comment(words: &str) -> String {
    words.replace("*/", "* /").replace("/*", "/ *")
}

fn table(meaning: &str, declared: &str, rows: &[Vec<u8>]) -> String {
    let mut text = format!("/* {meaning} */\nstatic const unsigned char {declared} = {{\n");
    for row in rows {
        let numbers: Vec<String> = row.iter().map(u8::to_string).collect();
        let _ = writeln!(text, "    {{ {} }},", numbers.join(", "));
    }
    text + "};\n\n"
}

const MONITOR: &str = "\
/* The values of the events before the last mark and since, NONE while there were none. */
struct monitor { unsigned char before, since; };

static const struct monitor fresh = { NONE, NONE };

/* An event; 0, and nothing changes, where the rule has no such letter. */
static inline int event(struct monitor *monitor, unsigned letter)
{
    if (letter >= LETTERS) return 0;
    monitor->since = step[monitor->since][letter];
    return 1;
}

/* A mark: what came since now counts as before. */
static inline void mark(struct monitor *monitor)
{
    if (monitor->since == NONE) return;
    if (monitor->before == NONE) monitor->before = monitor->since;
    else monitor->before = product[monitor->before][monitor->since];
    monitor->since = NONE;
}

/* The grade if the events since the last mark come for ever; NO_GRADE where there were none. */
static inline unsigned verdict(struct monitor monitor)
{
    if (monitor.since == NONE) return NO_GRADE;
    return grade[monitor.before][monitor.since];
}
";
