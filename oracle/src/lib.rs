//! Answers of the supplied Rust on seeded inputs. See README.md.

pub mod beam;
pub mod beam_inputs;
pub mod corner_inputs;
pub mod corners;
pub mod cubic;
pub mod curve_inputs;
pub mod flat;
pub mod inputs;
pub mod kinds;
#[path = "../../bindings/rust/src/layout.rs"]
pub mod layout;
pub mod limits;
pub mod nearest;
pub mod nearest_inputs;
pub mod panics;
pub mod params;
pub mod piece;
pub mod product_inputs;
pub mod products;
pub mod record;
pub mod rng;
pub mod shares;
pub mod sheet;
pub mod sheet_inputs;
pub mod vector;
pub mod words;
