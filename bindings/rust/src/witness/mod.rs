//! What shows why: why a lasso has its grade, which grades can still come, a lasso of each grade, why a rule is weak, where two rules differ, what one grades higher, and what is wrong
//! with a reduction made elsewhere. Each lasso is found with the library's calls and checked by `member` before it is handed back.

mod differ;
mod examples;
mod inclusion;
mod other_order;
mod pairs;
mod prospects;
mod reason;
mod shorten;
mod unconfirmed;
mod value_grades;
mod weak;
mod writings;

pub use differ::{compare, Comparison, Difference};
pub use examples::{examples, Example, MOST_TRIED};
pub use inclusion::{included_in, Grades};
pub use other_order::equal_in_order;
pub(crate) use pairs::pairs_of_values;
pub use prospects::{prospects, Prospects};
pub use reason::{why_grade, Accepted, Reason};
pub use unconfirmed::{why_not_confirmed, ReductionFault};
pub use value_grades::value_grades;
pub use weak::{why_weak, Weakness};
