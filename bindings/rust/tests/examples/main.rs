//! 01's examples, and near ones, through the wrapper.

mod beam;
mod boxes;
mod common;
mod laying;
mod nearest;
mod price;
mod refusal;
mod sheet;
