//! The Rust's assertions on a nonzero length, weight or derivative, as answers: nothing is printed, and
//! the file is kept in which the last one failed. Any other panic is a fault of this program or of a
//! stand-in, and stops it.

use std::cell::Cell;
use std::panic::PanicHookInfo;
use std::process::exit;

#[derive(Clone, Copy, Debug)]
pub enum Site {
    /// A weight is zero.
    Transform,
    /// A length is.
    Vector,
    /// dpdu is.
    Curve,
}

const FILES: [(&str, Site); 3] = [
    ("core/transform.rs", Site::Transform),
    ("core/geometry/vector.rs", Site::Vector),
    ("shapes/curve.rs", Site::Curve),
];

thread_local! {
    static LAST: Cell<Option<Site>> = const { Cell::new(None) };
}

pub fn last() -> Option<Site> {
    LAST.get()
}

pub fn on_panic(info: &PanicHookInfo) {
    let assertion = match info.payload().downcast_ref::<String>() {
        Some(message) => message.starts_with("assertion `left != right` failed"),
        None => false,
    };
    let file = info.location().map_or("", |location| location.file());
    let site = FILES.iter().find(|(name, _)| file.ends_with(name));
    match site {
        Some((_, site)) if assertion => LAST.set(Some(*site)),
        _ => {
            eprintln!("{info}");
            exit(1);
        }
    }
}
