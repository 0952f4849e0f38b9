//! The second engine: loader, writer, configurations and steps written from the rules alone (docs/RULES.md).

pub mod config;
pub mod flat;
pub mod load;
pub mod share;
pub mod step;
pub mod types;
pub mod write;

#[cfg(test)]
mod tests;

pub use config::*;
pub use flat::*;
pub use load::*;
pub use share::*;
pub use step::*;
pub use types::*;
pub use write::*;
