//! What help says beyond the subcommands: the files, grades, marks and formulas.

/// A subject that help explains.
pub struct Topic {
    pub name: &'static str,
    /// What it is about, in a line.
    pub purpose: &'static str,
    /// Paragraphs and examples; a part that begins with four blanks is printed as it stands.
    pub text: &'static str,
}

pub const ALL: [Topic; 4] = [
    Topic {
        name: "formats",
        purpose: "the files: rules, automata, marks, lassos and maps, as bytes and as texts",
        text: FORMATS,
    },
    Topic {
        name: "grades",
        purpose: "what the grade of a lasso is, and what strong means",
        text: GRADES,
    },
    Topic {
        name: "marks",
        purpose: "which pairs may be marked, and which the tool writes",
        text: MARKS,
    },
    Topic {
        name: "formulas",
        purpose: "rules from temporal formulas, and formulas where a rule is wanted",
        text: FORMULAS,
    },
];

pub fn named(name: &str) -> Option<&'static Topic> {
    ALL.iter().find(|topic| topic.name == name)
}

const FORMATS: &str = "\
A rule file has three sections, each behind its count, and nothing behind them: elements (a byte n, 1 to 64, then n·n bytes, \
the product a·b at a·n + b), letters (a byte k, 1 to 16, then the element of each letter), marks (two bytes, low byte first, 0 \
to 4,096, then three bytes a mark: s, e and the grade, 1 to 3). An automaton file: states (a byte, 1 to 6, then 0 plain, 1 \
initial, 2 final or 3 both for each), letters (a byte, 1 to 16), transitions (two bytes, 0 to 576, then from, letter, to). A \
marks section can be a file of its own. A map has a byte for each element.

The same as texts, which may name letters and carry comments; the comments behind the first line are the description, and \
every subcommand that writes a text keeps it:

    duknavet rule 1
    # Alarms without end.
    elements 2
      0 0
      0 1
    letters 2
      alarm 0
      calm 1
    marks 1
      0 0 proper

    duknavet automaton 1
    states 2
      initial
      final
    letters 2
    transitions 4
      0 0 1
      0 1 0
      1 0 1
      1 1 0

A lasso is u, then v for ever; u may be empty, and then only v is written:

    u: calm  v: alarm calm

Letters may be valuations of propositions instead (a line `propositions 2 \"flap\" \"pump\"` before the elements of a rule): \
letter j is the one in which proposition i holds exactly if bit i of j is 1. Automata of other tools are read in the Hanoi \
format and as never claims. `duknavet-tool convert` turns each form into each other, `duknavet-tool show` explains a file, and \
docs/FORMATS.md of the repository has every byte and every refusal.";

const GRADES: &str = "\
The value of a word is the product of its letters' elements. A marked pair (s, e) accepts the lasso u, then v for ever, if the \
same endless word can be written as p, then w for ever, neither empty, so that s is the value of p and e that of w. The grade of \
a lasso is the highest of the marks that accept it: 3 is proper, 2 tolerable, 1 poor; it is 0 where none does.

    $ duknavet-tool member samples/three-grades.rule 'u: 1  v: 0'

A rule is strong if any two lassos whose starts have equal values and whose cycles have equal values have the same grade, and \
else weak. Reduction, complement, combinations and verdicts are of strong rules: of a weak one they are refused by 12.

Grades compare: both of two rules is the lower grade, either the higher, complement 3 less the grade.";

const MARKS: &str = "\
An element e is idempotent if e·e = e. A pair (s, e) is linked if e is idempotent and s·e = s; only linked pairs may be marked, \
each once (refusals 7 and 8). Linked pairs (s, e) and (t, f) are conjugate if s·x = t, x·y = e and y·x = f for some x and y: \
then some endless word, cut at two places, has both for its values.

    $ duknavet-tool classes samples/three-grades.rule

A rule need not mark all conjugates of a marked pair, and may be strong all the same. What the tool writes marks every linked \
pair whose lassos have a grade of 1 or more, with that grade, ordered by s, then by e.";

const FORMULAS: &str = "\
A formula says what has to hold of an endless sequence of events, and of what is left of it after some of them. With --letters \
exactly one of the named events is at each place, and {alarm, shut} is one of several; with --ap up to four propositions hold or do \
not hold at each place.

    $ duknavet-tool formula --letters alarm,pump,shut 'G (alarm -> (!pump U shut))'

From strong to weak: !f, not f; X f, next f: f holds without the first event; F f, eventually f: from some place on; G f, always f: \
from every place on; never f is G !f. f U g, f until g: g holds from some place on, and f from each place before; f W g, f weak until \
g: that, or f always; f R g, f release g: g up to where f holds, that place included, or for ever; f M g: g U (f && g). f && g; f xor g; \
f || g; f -> g and f <-> g. Chains of U W R M, or of -> and <->, need brackets.

Before a formula f: makes it stand where a rule does:

    $ duknavet-tool included --letters alarm,calm 'f:G F alarm' 'f:F alarm'

    $ duknavet-tool member --ap alarm,pump 'f:G (alarm -> F !pump)' 'v: alarm&!pump'

A file that begins `duknavet formula 1` has parts and grades, and an endless sequence has the highest grade of a line whose formula \
holds:

    duknavet formula 1
    quiet = !pump U shut
    proper: G (alarm -> X quiet)
    tolerable: G F shut
    poor: F shut

docs/FORMULAS.md of the repository has the specification patterns, such as response(S, P), and ten rules worked through.";
