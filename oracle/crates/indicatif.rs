//! Stand-in for `indicatif`: the name of a type that nothing here makes.

pub enum ProgressBar {}
