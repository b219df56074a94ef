//! A stage as a drawing for Graphviz: gates with their pins, the levels in the situation of the verdict, the fault, and what still waits. Levels
//! and verdict are the library's; what is here only shows them.

mod dot;
mod scene;

pub use dot::dot;
pub use scene::Scene;
