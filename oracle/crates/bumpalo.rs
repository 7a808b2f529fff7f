//! Stand-in for `bumpalo`: alloc under the name it lends.

pub extern crate alloc as core_alloc;
