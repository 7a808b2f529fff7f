//! Stand-in for `static_assertions`: core under the name it lends.

pub extern crate core as _core;
