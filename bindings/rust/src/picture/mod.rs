//! Pictures of rules and automata, as SVG and DOT, and a page for a printer. Nothing is told by colour alone.

mod colour;
mod dot;
mod drawing;
mod graph;
mod layers;
mod page;
mod svg;
mod table;

pub use dot::dot;
pub use drawing::graph_svg;
pub use graph::Diagram;
pub use page::page;
pub use table::table_svg;
